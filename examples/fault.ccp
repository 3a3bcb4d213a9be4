# A fault: the acknowledgement that faults changes nothing, and those after it are counted and not run.
(def (Report (left 2000) (runs 0)))
(when true
  (:= Report.runs (+ Report.runs 1))
  (:= Report.left (- Report.left Ack.bytes_acked)))
---
bytes_acked=1500
bytes_acked=1500
bytes_acked=100
