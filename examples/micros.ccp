# Micros and report: a report once in a round-trip time, counted from the time that Micros was set to 0.
(def (Report (volatile acked 0) (volatile waited 0)))
(when true
  (:= Report.acked (+ Report.acked Ack.bytes_acked))
  (:= Report.waited Micros)
  (fallthrough))
(when (> Micros Flow.rtt_sample_us)
  (report)
  (:= Micros 0))
---
now=400 bytes_acked=1500 rtt_sample_us=1000
now=900 bytes_acked=1500 rtt_sample_us=1000
now=1100 bytes_acked=1500 rtt_sample_us=1000
now=1900 bytes_acked=1500 rtt_sample_us=1000
now=2500 bytes_acked=1500 rtt_sample_us=1000
