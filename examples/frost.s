; A supplier's frost model, shortened, for sixteen runs at once: a run is heated where t + (100 - h) / 5
; is below 3, t its temperature in degrees and h the humidity in percent.
loadv v1,(s0)           ; sixteen temperatures in tenths of a degree
loadv v2,64(s0)         ; their humidities in percent
i32tof32 v1,v1
i32tof32 v2,v2
movei s1,10
i32tof32 s1,s1          ; 10.0
fdiv v1,v1,s1           ; the temperatures in degrees
movei s2,100
i32tof32 s2,s2          ; 100.0
fsub v2,s2,v2           ; what the air lacks of 100 percent
movei s3,5
i32tof32 s3,s3          ; 5.0
fdiv v2,v2,s3           ; a fifth of it
fadd v2,v1,v2           ; the model's number: low where it is cold and moist
moveih s4,0x4040        ; 3.0 is the pattern 0x40400000, and the low half is 0 from the start
cmpflt s59,v2,s4        ; the lane mask: the runs whose number is below 3
movei v3,1              ; 1 in those lanes
storev v3,128(s0)       ; those relays are switched on; the others stay
end
