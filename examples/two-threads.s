; Two threads, of which one waits. Thread 0 waits for half past two, a minute that the clock may leave out;
; thread 1 switches on thirteen relays, for eleven stairs and two ramps, a byte each.
movei s2,2              ; the control register that holds the thread's number
readcr s1,s2
bnez s1,relays          ; thread 1

movei s3,120+30         ; half past two, in minutes
wait:
load32 s4,(s0)          ; the clock, the first word of memory
cmpeq s5,s4,s3
beqz s5,wait
end

relays:
movei s3,64             ; where the relays' bytes begin
movei s4,64+11+2        ; the place behind the last
movei s5,1              ; on
next:
store8 s5,(s3)          ; a relay is switched on
addi s3,s3,1
cmpult s6,s3,s4         ; is it one of them?
bnez s6,next
end
