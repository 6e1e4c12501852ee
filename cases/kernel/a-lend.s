# What A lends B for a call: 8 bytes of its data.

        csetboundsimm ca6, cgp, 8
