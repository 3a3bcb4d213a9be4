# Control variables: the agent's values, which a program may assign too. A volatile one is reset by a report.
(def (Report (volatile acked 0)) (goal 1000) (volatile patience 3))
(when true
  (:= Report.acked (+ Report.acked Ack.bytes_acked))
  (:= patience (- patience 1))
  (fallthrough))
(when (|| (> Report.acked goal) (== patience 0))
  (:= goal (* goal 2))
  (report))
---
bytes_acked=1500
bytes_acked=300
bytes_acked=300
bytes_acked=300
bytes_acked=5000
