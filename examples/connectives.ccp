# Connectives: both parts are worked out, whatever the first one is, and a number is true where it isn't 0.
(def (Report (volatile marked false) (per_packet 0)))
(when true
  (:= Report.marked (|| Report.marked Ack.ecn_packets))
  (fallthrough))
(when (&& (> Ack.packets_acked 0) (> (/ Ack.bytes_acked Ack.packets_acked) 1000))
  (:= Report.per_packet (/ Ack.bytes_acked Ack.packets_acked))
  (report))
---
packets_acked=2 bytes_acked=3000 ecn_packets=1
packets_acked=0 bytes_acked=0
