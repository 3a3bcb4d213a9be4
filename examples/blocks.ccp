# Blocks: the first body that runs ends the work on an acknowledgement, unless it falls through to the next block.
(def (Report (all 0) (small 0) (others 0)))
(when true
  (:= Report.all (+ Report.all 1))
  (fallthrough))
(when (< Ack.bytes_acked 1000)
  (:= Report.small (+ Report.small 1)))
(when true
  (:= Report.others (+ Report.others 1)))
---
bytes_acked=100
bytes_acked=1500
bytes_acked=200
