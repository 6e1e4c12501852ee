# A unseals B's data with its own, which has no Unseal. That answers a capability without tag: cause 2, tag.

        .align  12
a_code: j       a_start
        .word   0                       # no door

a_start: cunseal ct0, cs1, cgp
        cld     t1, 0(ct0)
