"""The model of values: what the standards' own formulas give, beside which the proved program stands. A module an idea; each number that
has a name has it in one module.

    rights.py        permissions and object types
    words.py         capability words: what they decode to, and the addresses with which their bounds stay (CHERI Concentrate)
    bounds.py        what setting bounds gives
    capabilities.py  values, and what each row over capabilities gives of them (CHERI-RISC-V)
    worked.py        rows over capabilities that are worked by hand, of which cases and tests are made
    integers.py      what each row over integers gives (RISC-V unprivileged manual)
    names.py         names and numbers of registers
    row_forms.py     the rows by how they are written
    rows.py          the words of rows, and their texts
    faults.py        what mcause and mtval tell
    memory.py        RAM with its tags
    devices.py       halt, timer and console, and where their registers lie
    machine.py       the machine over all of these, a step at a time
    texts.py         texts of the assembly language, and their machines
    schedules.py     runs on a schedule
    sessions.py      sessions of the debugger (docs/DEBUGGER.md)
    recorded.py      steps that are recorded: how each made what it wrote, and its line of a trace (docs/TRACE.md)
    unhandled.py     the trap that nothing handled, and where a run ended (docs/DEBUGGER.md)
    origins.py       where a value came from and where its tag went, over a recorded run
    pasts.py         sessions that go back, and ask for that
    reach.py         what code can reach (docs/AUTHORITY.md)
    policy.py        rules for what code can reach (docs/POLICY.md)
    listings.py      names in texts: labels after addresses and before rows
    images.py        image files, byte by byte

It shares nothing with the definitions in crates/*/specs. Its tests are tests/, rows of the standards that are worked by hand
(`python3 -m unittest discover -s tools`, which `./test files` calls). Imports name the package: tools/ stands in Python's search path,
where a script puts it that is called by its path.
"""
