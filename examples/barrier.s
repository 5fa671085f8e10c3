; Two threads meet. With one thread alone nobody comes, and the run is stuck.
movei s1,1              ; the count less one
barrier s0,s1           ; waits at barrier 0 until two are there
end
