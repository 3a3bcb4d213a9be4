(def (Report (volatile acked 0) (volatile sacked 0) (volatile loss 0)
  (volatile timeout false) (volatile rtt 0) (volatile inflight 0)))
(when true
  (:= Report.inflight Flow.packets_in_flight)
  (:= Report.rtt Flow.rtt_sample_us)
  (:= Report.acked (+ Report.acked Ack.bytes_acked))
  (:= Report.sacked (+ Report.sacked Ack.packets_misordered))
  (:= Report.loss Ack.lost_pkts_sample)
  (:= Report.timeout Flow.was_timeout)
  (fallthrough))
(when (|| Report.timeout Report.loss) (report) (:= Micros 0))
(when (> Micros Flow.rtt_sample_us) (report) (:= Micros 0))
---
now=10000 bytes_acked=1448 rtt_sample_us=10000 packets_in_flight=9
now=10500 bytes_acked=1448 packets_misordered=1 lost_pkts_sample=1 rtt_sample_us=10000 packets_in_flight=7
now=20600 bytes_acked=1448 rtt_sample_us=10000 packets_in_flight=8
