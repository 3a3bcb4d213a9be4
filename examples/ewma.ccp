# ewma: the old value counts for 8 tenths and the new one for 2; a name that is 0 takes the new value whole.
(def (Report (rtt 0)))
(when true
  (:= Report.rtt (ewma 8 Flow.rtt_sample_us))
  (report))
---
rtt_sample_us=1000
rtt_sample_us=2000
rtt_sample_us=2000
