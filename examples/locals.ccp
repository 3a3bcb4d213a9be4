# Locals: a name without a meaning is one from its first assignment to the end of that body.
(def (Report (flight 0) (most 0)))
(when true
  (:= flight (+ Flow.bytes_in_flight Flow.bytes_pending))
  (:= is_most (> flight Report.most))
  (:= Report.flight flight)
  (:= Report.most (if is_most flight))
  (report))
---
bytes_in_flight=3000 bytes_pending=500
bytes_in_flight=2000
