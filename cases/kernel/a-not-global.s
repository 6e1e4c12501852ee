# What A lends isn't Global. Data has no Store_Local_Capability, so B can't store it away.

        li      t0, -2                  # every permission but Global
        candperm ca6, ca6, t0
        li      t0, 0
