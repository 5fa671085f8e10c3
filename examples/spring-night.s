; The spring night of the clock change, for the night box. Thread 0 waits for half past two, a minute that the
; clock leaves out. Thread 1 starts the stairs at three: thirteen relays, for eleven stairs and two ramps.
movei s2,2              ; the control register that holds the thread's number
readcr s1,s2
beqz s1,wait            ; thread 0
cmpeqi s5,s1,1
bnez s5,stairs          ; thread 1
end                     ; the others have nothing to do

wait:
load32 s4,(s0)          ; the minute of the day, the first word of memory
cmpeqi s5,s4,120+30     ; half past two
beqz s5,wait
end

stairs:
load32 s4,(s0)
cmpulti s5,s4,180       ; three o'clock
bnez s5,stairs
movei s3,0x1FFF         ; thirteen relays
store32 s3,64(s0)       ; the word that the box takes them from
end
