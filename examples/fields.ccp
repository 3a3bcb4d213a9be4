# Report fields: after each report a volatile field is back at its declared value, and the others stay.
(def (Report (volatile acked 0) (total 0) (volatile lost false)))
(when true
  (:= Report.acked (+ Report.acked Ack.bytes_acked))
  (:= Report.total (+ Report.total Ack.bytes_acked))
  (:= Report.lost (|| Report.lost Ack.lost_pkts_sample))
  (fallthrough))
(when (> Report.acked 2999) (report))
---
bytes_acked=1500 lost_pkts_sample=2
bytes_acked=1500
bytes_acked=1500
bytes_acked=1500
bytes_acked=1500
