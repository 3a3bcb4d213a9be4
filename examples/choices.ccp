# if and !if: a name is assigned only where a condition is true, or only where it is false.
(def (Report (shortest +infinity) (timeouts 0) (calm 0)))
(when true
  (:= Report.shortest (if (< Flow.rtt_sample_us Report.shortest) Flow.rtt_sample_us))
  (:= Report.timeouts (if Flow.was_timeout (+ Report.timeouts 1)))
  (:= Report.calm (!if Flow.was_timeout (+ Report.calm 1))))
---
rtt_sample_us=400
rtt_sample_us=300
was_timeout=1 rtt_sample_us=900
