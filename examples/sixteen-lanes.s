; Sixteen heated runs of a stair at once: temperatures in bytes 0 to 63 of memory, relays from byte 64 on.
loadv v1,(s0)           ; sixteen temperatures
cmplti s59,v1,3         ; the lane mask: the runs that are below 3 degrees
movei v2,1              ; 1 in those lanes
storev v2,64(s0)        ; those relays are switched on; the others stay
end
