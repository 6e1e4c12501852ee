# A stores a capability, writes one of its bytes anew and loads it. A byte that is stored takes the tag: cause 2, tag.

        .align  12
a_code: j       a_start
        .word   0                       # no door

a_start: csc    cgp, 16(cgp)
        clc     ct0, 16(cgp)
        csd     zero, 0(ct0)            # as it was stored it is good
        csb     zero, 16(cgp)           # the byte that stood there
        clc     ct0, 16(cgp)
        csb     zero, 0(ct0)
