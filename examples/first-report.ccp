(def (Report (volatile acked 0))) (when true (:= Report.acked (+ Report.acked Ack.bytes_acked)) (fallthrough)) (when (> Report.acked 2999) (report))
---
bytes_acked=1500
bytes_acked=1500
bytes_acked=1500
