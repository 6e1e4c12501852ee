"""Command lines with their plans, listings of images, and programs that run on a schedule.

Values are from the rules of the command line, of listings and of the schedule.
"""

from cases.programs.items import line
from cases.programs.machines import FIRST_IMAGE
from cases.quoting import quoted
from model.listings import named, table_text

# A command line, and its plan: of a run the image, the steps, the gap, the tick and the input, whether it is quiet, and its trace.
PLANS = [
    ("go hello.s", "go hello.s 10000000000 1 1000 100 -"),
    ("go hello.img --steps 22 --input keys --gap 1", "go hello.img 22 1 1 100 keys"),
    ("go --times=10000 --steps 1 hello.s --quiet", "go hello.s 1 10000 1000 100 - quiet"),
    ("go hello.s --steps 22 --trace t --symbols hello.sym", "go hello.s 22 1 1000 100 - trace t symbols hello.sym"),
    ("go hello.s --steps 22 --profile p --trace t", "go hello.s 22 1 1000 100 - profile p trace t"),
    ("go hello.s --times 0x2710 --steps=0x1", "go hello.s 1 10000 1000 100 -"),
    ("go --why=all hello.s --steps 22", "go hello.s 22 1 1000 100 - why all"),
    ("go hello.s --why=double --steps 22", "go hello.s 22 1 1000 100 - why double"),
    ("go --json hello.s --profile p --steps 22 --quiet", "go hello.s 22 1 1000 100 - quiet json profile p"),
    ("run hello.img 5", "run hello.img 5 1000 100 -"),
    ("run hello.img 1", "run hello.img 1 1000 100 -"),
    ("run hello.img 100000000", "run hello.img 100000000 1000 100 -"),
    ("run hello.img 0x16 --gap 0x3E8 --tick=0x0064", "run hello.img 22 1000 100 -"),
    ("run hello.img 0x5f5e100 --times 0x1", "run hello.img 100000000 1000 100 -"),
    ("run hello.img +22 --gap +7", "run hello.img 22 7 100 -"),
    ("run hello.img 1_000 --gap 9_9_9 --tick=+1_0 --times 0x0_1", "run hello.img 1000 999 10 -"),
    ("run hello.img 0x1_0000 --gap 0xa", "run hello.img 65536 10 100 -"),
    ("run hello.img 22 --input keys --gap 1", "run hello.img 22 1 100 keys"),
    ("run --gap=1000000 --tick=1000000 hello.img 22", "run hello.img 22 1000000 1000000 -"),
    ("run hello.img 22 --tick 0", "run hello.img 22 1000 0 -"),
    ("run hello.img 22 --quiet", "run hello.img 22 1000 100 - quiet"),
    ("run hello.img 22 --trace hello.trace", "run hello.img 22 1000 100 - trace hello.trace"),
    ("run hello.img 22 --trace=t --input keys --quiet", "run hello.img 22 1000 100 keys quiet trace t"),
    ("run --why hello.img 22", "run hello.img 22 1000 100 - why unfetched"),
    ("run --why=all hello.img 22", "run hello.img 22 1000 100 - why all"),
    ("run --why=double hello.img 22", "run hello.img 22 1000 100 - why double"),
    ("run hello.img 22 --trace t --trace-from 1", "run hello.img 22 1000 100 - trace t"),
    ("run hello.img --trace-last=1000000 22 --trace-from=100000000000000 --trace=t",
     "run hello.img 22 1000 100 - trace t trace-from 100000000000000 trace-last 1000000"),
    ("run hello.img 22 --trace t --trace-from 0x2 --trace-last=0xf4240",
     "run hello.img 22 1000 100 - trace t trace-from 2 trace-last 1000000"),
    ("run hello.img 22 --profile p", "run hello.img 22 1000 100 - profile p"),
    ("run hello.img 22 --calls c", "run hello.img 22 1000 100 - calls c"),
    ("go --calls=c hello.s --profile p --trace t --steps 22", "go hello.s 22 1 1000 100 - profile p calls c trace t"),
    ("run --profile=p hello.img 22 --symbols hello.sym --why --quiet",
     "run hello.img 22 1000 100 - quiet why unfetched profile p symbols hello.sym"),
    ("run hello.img --json 22", "run hello.img 22 1000 100 - json"),
    ("run hello.img 22 --json --why", "run hello.img 22 1000 100 - json why unfetched"),
    ("run hello.img --why=double 22 --quiet --json", "run hello.img 22 1000 100 - quiet json why double"),
    ("run hello.img 22 --trace t --json", "run hello.img 22 1000 100 - json trace t"),
    ("run --json hello.img 22 --policy hello.policy", "run hello.img 22 1000 100 - json policy hello.policy"),
    ("run hello.img 22 --policy hello.policy", "run hello.img 22 1000 100 - policy hello.policy"),
    ("run --symbols=hello.sym hello.img 22 --policy=hello.policy --input keys --gap 7",
     "run hello.img 22 7 100 keys policy hello.policy symbols hello.sym"),
    ("run hello.img 22 --symbols hello.sym", "run hello.img 22 1000 100 - symbols hello.sym"),
    ("run --symbols=hello.sym --why=all hello.img 22 --trace t", "run hello.img 22 1000 100 - why all trace t symbols hello.sym"),
    ("run hello.img 22 --trace t --policy hello.policy --quiet", "run hello.img 22 1000 100 - quiet trace t policy hello.policy"),
    ("audit hello.img 5", "audit hello.img 5 1000 100 -"),
    ("audit hello.img 22 --input keys --gap 1", "audit hello.img 22 1 100 keys"),
    ("audit hello.img 0x16 --tick=0x0", "audit hello.img 22 1000 0 -"),
    ("audit --tick=0 hello.img 22 --policy=hello.policy", "audit hello.img 22 1000 0 - policy hello.policy"),
    ("audit hello.img --symbols hello.sym 22 --policy hello.policy", "audit hello.img 22 1000 100 - policy hello.policy symbols hello.sym"),
    ("audit --json hello.img 22", "audit hello.img 22 1000 100 - json"),
    ("audit hello.img 22 --policy hello.policy --quiet --json", "audit hello.img 22 1000 100 - quiet json policy hello.policy"),
    ("audit hello.img 22 --trace t --symbols hello.sym", "audit hello.img 22 1000 100 - trace t symbols hello.sym"),
    ("audit --quiet hello.img 22 --trace-from 3 --trace t", "audit hello.img 22 1000 100 - quiet trace t trace-from 3"),
    ("audit hello.img 22 --trace=t --trace-last 7 --policy hello.policy", "audit hello.img 22 1000 100 - trace t trace-last 7 policy hello.policy"),
    ("prove hello.img --policy hello.policy", "prove hello.img hello.policy 1000000"),
    ("prove --policy=hello.policy hello.img --steps 0x10 --symbols hello.sym", "prove hello.img hello.policy 16 symbols hello.sym"),
    ("prove hello.img --steps=1 --quiet --policy hello.policy", "prove hello.img hello.policy 1 quiet"),
    ("", "first"),
    ("asm hello.s hello.img", "asm hello.s hello.img -"),
    ("asm hello.s hello.img --symbols hello.sym", "asm hello.s hello.img hello.sym"),
    ("image hello.bin hello.img", "image hello.bin hello.img - - - -"),
    ("image hello.bin hello.img --at 0x80001000 --entry 2147487744 --pages 16 --mode 1",
     "image hello.bin hello.img 2147487744 2147487744 16 1"),
    ("image hello.bin hello.img --at 0xFFFFffffFFFFffff --pages 0", "image hello.bin hello.img 18446744073709551615 - 0 -"),
    ("image hello.bin hello.img --flat-elf", "image hello.bin hello.img - - - -"),
    ("dis hello.img", "dis hello.img -"),
    ("dis hello.img --symbols hello.sym", "dis hello.img hello.sym"),
    ("dis hello.img --header", "dis hello.img - header"),
    ("dis --header hello.img --symbols=hello.sym", "dis hello.img hello.sym header"),
    ("dis --symbols hello.sym --header hello.img", "dis hello.img hello.sym header"),
    ("debug hello.img", "debug hello.img -"),
    ("debug hello.img --symbols hello.sym", "debug hello.img hello.sym"),
    ("debug --symbols=hello.sym hello.img", "debug hello.img hello.sym"),
    ("debug --input=keys hello.img", "debug hello.img - keys"),
    ("debug hello.img --tick 0 --gap=1000000 --symbols hello.sym", "debug hello.img hello.sym - 1000000 0"),
    ("debug hello.img --tick 0x0 --gap=0xF4240", "debug hello.img - - 1000000 0"),
    ("bounds 0x80000000 0x1001", "bounds 2147483648 4097 -"),
    ("bounds 0 18446744073709551615 --address 007", "bounds 0 18446744073709551615 7"),
    ("bounds 0x1001", "bounds - 4097 -"),
    ("bounds 0x8000_0000 4_097 --address 0xFFFF_ffff_ffff_FFFF", "bounds 2147483648 4097 18446744073709551615"),
    ("bounds 18446744073709551615", "bounds - 0xffffffffffffffff -"),
    ("bounds --json 0x80000000 0x1001 --address 7", "bounds 2147483648 4097 7 json"),
    ("bounds --json 0x1001", "bounds - 4097 - json"),
    ("word 0xffff1ffffc018004 007", "word 18446497783037919236 7"),
    ("word --memory 18446462598732840960 0", "word 0xffff000000000000 0 memory"),
    ("word --json 0xffff1ffffc018004 --memory 007", "word 18446497783037919236 7 memory json"),
]

# A command line that is refused, and what the text of its refusal names.
REFUSED = [
    ("go", "FILE"),
    ("go hello.s 5", "5"),
    ("go hello.s --steps 0", "--steps"),
    ("go hello.s --steps 10000000001", "--steps"),
    ("go hello.s --times 10001", "--times"),
    ("go hello.s --trace hello.s", "a file that is written"),
    ("go hello.s --why --policy hello.policy", "--policy"),
    ("run hello.s --steps 5", "--steps"),
    ("link hello.img", "link"),
    ("dis", "IMAGE"),
    ("dis hello.img more", "more"),
    ("debug", "IMAGE"),
    ("debug hello.img more", "more"),
    ("debug --symbols hello.sym", "IMAGE"),
    ("debug hello.img --symbols", "--symbols"),
    ("asm hello.s", "OUT"),
    ("asm hello.s hello.img more", "more"),
    ("run", "IMAGE"),
    ("run hello.img", "STEPS"),
    ("run hello.img 0", "STEPS"),
    ("run hello.img 100000001", "STEPS"),
    ("run hello.img -1", "-1"),
    ("run hello.img 0x", "invalid value '0x' for '<STEPS>'"),
    ("run hello.img 0X16", "invalid value '0X16' for '<STEPS>': invalid digit found in string"),
    ("run hello.img 0x+16", "invalid value '0x+16' for '<STEPS>': invalid digit found in string"),
    ("run hello.img 0x1g", "STEPS"),
    ("run hello.img _1000", "invalid value '_1000' for '<STEPS>': invalid digit found in string"),
    ("run hello.img 1000_", "invalid value '1000_' for '<STEPS>': invalid digit found in string"),
    ("run hello.img 1__000", "invalid value '1__000' for '<STEPS>': invalid digit found in string"),
    ("run hello.img _", "invalid value '_' for '<STEPS>': invalid digit found in string"),
    ("run hello.img 0x_16", "invalid value '0x_16' for '<STEPS>': invalid digit found in string"),
    ("run hello.img 0_x16", "invalid value '0_x16' for '<STEPS>': invalid digit found in string"),
    ("run hello.img +_16", "invalid value '+_16' for '<STEPS>': invalid digit found in string"),
    ("run hello.img 100_000_001", "invalid value '100_000_001' for '<STEPS>': 100000001 is not in 1..=100000000"),
    ("run hello.img 18_446_744_073_709_551_616", "'<STEPS>': number too large to fit in target type"),
    ("bounds 0x1_0000_0000_0000_0000", "LENGTH is a number of 0 to 18446744073709551615"),
    ("run hello.img 0", "invalid value '0' for '<STEPS>': 0 is not in 1..=100000000"),
    ("run hello.img 0x5f5e101", "invalid value '0x5f5e101' for '<STEPS>': 100000001 is not in 1..=100000000"),
    ("run hello.img 100000001", "invalid value '100000001' for '<STEPS>': 100000001 is not in 1..=100000000"),
    ("run hello.img 18446744073709551616", "'<STEPS>': number too large to fit in target type"),
    ("run hello.img 0x10000000000000000", "'<STEPS>': number too large to fit in target type"),
    ("run hello.img 5 --gap=", "--gap"),
    ("run hello.img 5 --gap 0x0", "invalid value '0x0' for '--gap <N>': 0 is not in 1..=1000000"),
    ("run hello.img 5 --gap=many", "invalid value 'many' for '--gap <N>': invalid digit found in string"),
    ("run hello.img 5 --trace t --trace-from 0x0", "'--trace-from <N>': 0 is not in 1..=100000000000000"),
    ("go hello.s --steps 0x2540be401", "'--steps <N>': 10000000001 is not in 1..=10000000000"),
    ("debug hello.img --tick 0xf4241", "'--tick <N>': 1000001 is not in 0..=1000000"),
    ("run hello.img 5 --gap 0", "--gap"),
    ("run hello.img 5 --gap 1000001", "--gap"),
    ("run hello.img 5 --tick 1000001", "--tick"),
    ("run hello.img 5 --times 0", "--times"),
    ("run hello.img 5 --times 1000001", "--times"),
    ("run hello.img 100000001 --times 1", "STEPS"),
    ("run hello.img 5 --input", "--input"),
    ("run hello.img 5 --speed 9", "--speed"),
    ("run hello.img 5 --quiet 1", "1"),
    ("run hello.img 5 --trace", "--trace"),
    ("run hello.img 5 --trace hello.img", "a file that is written"),
    ("run hello.img 5 --trace keys --input keys", "a file that is written"),
    ("run hello.img 0 --trace hello.img", "STEPS"),
    ("run hello.img 5 --profile", "--profile"),
    ("run hello.img 5 --calls", "--calls"),
    ("run hello.img 5 --calls c --calls c", "--calls"),
    ("run hello.img 5 --calls hello.img", "a file that is written"),
    ("run hello.img 5 --calls t --trace t", "a file that is written"),
    ("run hello.img 5 --calls p --profile p", "a file that is written"),
    ("go hello.s --input keys --calls keys", "a file that is written"),
    ("audit hello.img 5 --calls c", "--calls"),
    ("run hello.img 5 --profile p --profile p", "--profile"),
    ("run hello.img 5 --profile hello.img", "a file that is written"),
    ("run hello.img 5 --profile t --trace t", "a file that is written"),
    ("run hello.img 5 --input keys --profile keys", "a file that is written"),
    ("go hello.s --policy hello.policy --profile hello.policy", "a file that is written"),
    ("audit hello.img 5 --profile p", "--profile"),
    ("run hello.img 5 --why all", "all"),
    ("run hello.img 5 --why=none", "none"),
    ("run hello.img 5 --why double", "double"),
    ("run hello.img 5 --why=Double", "Double"),
    ("run hello.img 5 --why=all --why=double", "--why"),
    ("run hello.img 5 -- --why=double", "--why=double"),
    ("run hello.img 5 --why=double --policy hello.policy", "--policy"),
    ("run hello.img 5 --why=", "--why"),
    ("run hello.img 5 --why=unfetched", "unfetched"),
    ("run hello.img 5 --why --why", "--why"),
    ("run hello.img 5 --why --why=all", "--why"),
    ("run hello.img 5 --why=all --why=all", "--why"),
    ("run hello.img 5 --why=all --why none", "--why"),
    ("run hello.img 5 --why=none --why=all", "--why"),
    ("run hello.img 5 -- --why=all", "--why=all"),
    ("run hello.img --why all -- --why=all", "all"),
    ("dis hello.img --why=all", "--why"),
    ("dis --header", "IMAGE"),
    ("dis hello.img --header --header", "--header"),
    ("dis hello.img --header=1", "--header"),
    ("dis hello.img --header 1", "1"),
    ("asm hello.s hello.img --header", "--header"),
    ("image hello.bin hello.img --header", "--header"),
    ("run hello.img 5 --header", "--header"),
    ("audit hello.img 5 --header", "--header"),
    ("debug hello.img --header", "--header"),
    ("run hello.img 22 --json --why --policy hello.policy", "--policy does not go with --why"),
    ("run hello.img 22 --json=yes", "--json"),
    ("word 0 0 --json --json", "--json"),
    ("audit hello.img 22 --json --json", "--json"),
    ("audit hello.img 22 --json=no", "--json"),
    ("prove hello.img --policy hello.policy --json", "--json"),
    ("dis hello.img --json", "--json"),
    ("debug hello.img --json", "--json"),
    ("bounds 0x1001 --header", "--header"),
    ("word 0 0 --header", "--header"),
    ("run hello.img 5 --policy", "--policy"),
    ("run hello.img 5 --policy hello.policy --why", "--policy"),
    ("run hello.img 5 --why=all --policy hello.policy", "--policy"),
    ("run hello.img 5 --symbols", "--symbols"),
    ("run hello.img 5 --symbols hello.sym --symbols hello.sym", "--symbols"),
    ("run hello.img 5 --symbols hello.sym --trace hello.sym", "a file that is written"),
    ("run hello.img 5 --symbols hello.sym --policy", "--policy"),
    ("run hello.img 5 --policy hello.policy --trace hello.policy", "a file that is written"),
    ("run hello.img 5 --policy hello.policy --symbols hello.sym --trace hello.sym", "a file that is written"),
    ("debug hello.img --policy hello.policy", "--policy"),
    ("prove", "IMAGE"),
    ("prove hello.img", "--policy <FILE>"),
    ("prove --policy hello.policy", "IMAGE"),
    ("prove hello.img --policy", "--policy"),
    ("prove hello.img --policy hello.policy 5", "5"),
    ("prove hello.img --policy hello.policy --steps 0", "'--steps <N>': 0 is not in 1..=1000000000"),
    ("prove hello.img --policy hello.policy --steps 1000000001", "--steps"),
    ("prove hello.img --policy hello.policy --trace t", "--trace"),
    ("audit", "IMAGE"),
    ("audit hello.img", "STEPS"),
    ("audit hello.img 0", "STEPS"),
    ("audit hello.img 5 --gap 0", "--gap"),
    ("audit hello.img 5 --tick 1000001", "--tick"),
    ("audit hello.img 5 --times 0", "--times"),
    ("audit hello.img 5 --symbols hello.sym --trace hello.sym", "a file that is written"),
    ("audit hello.img 5 --quiet --quiet", "--quiet"),
    ("audit hello.img 5 --trace-from 2", "--trace"),
    ("audit hello.img 5 --trace t --trace-last 0", "--trace-last"),
    ("audit hello.img 5 --trace hello.img", "a file that is written"),
    ("audit hello.img 5 --policy p --trace p", "a file that is written"),
    ("audit hello.img 5 --why", "--why"),
    ("run hello.img 5 --trace-from 2", "--trace-from and --trace-last go with --trace"),
    ("run hello.img 5 --trace-last 2", "--trace-from and --trace-last go with --trace"),
    ("run hello.img 5 --trace t --trace-from 0", "--trace-from"),
    ("run hello.img 5 --trace t --trace-from 100000000000001", "--trace-from"),
    ("run hello.img 5 --trace t --trace-last 0", "--trace-last"),
    ("run hello.img 5 --trace t --trace-last 1000001", "--trace-last"),
    ("debug hello.img --gap 0", "--gap"),
    ("debug hello.img --gap 1000001", "--gap"),
    ("debug hello.img --tick 1000001", "--tick"),
    ("debug hello.img --input", "--input"),
    ("asm hello.s hello.s", "a file that is written"),
    ("asm hello.s hello.img --symbols hello.s", "a file that is written"),
    ("asm hello.s hello.img --symbols hello.img", "a file that is written"),
    ("image hello.bin", "OUT"),
    ("image hello.bin hello.bin", "a file that is written"),
    ("image hello.bin hello.img --at 18446744073709551616", "--at takes a number of 0 to 18446744073709551615"),
    ("image hello.bin hello.img --entry 0x", "--entry takes a number of 0 to 18446744073709551615"),
    ("image hello.bin hello.img --pages many", "--pages takes a number of 1 to 65536"),
    ("image hello.bin hello.img --mode=-1", "--mode takes 0 or 1"),
    ("bounds", "BASE"),
    ("bounds 0x", "LENGTH is a number of 0 to 18446744073709551615"),
    ("bounds 18446744073709551616", "LENGTH is a number of 0 to 18446744073709551615"),
    ("bounds 5 --address 1", "--address goes with BASE and LENGTH"),
    ("bounds 0 1 2", "2"),
    ("word", "HIGH"),
    ("word 0", "LOW"),
    ("word x 0", "HIGH is a number of 0 to 18446744073709551615"),
    ("word 0x10000000000000000 0", "HIGH is a number of 0 to 18446744073709551615"),
    ("word 0 18446744073709551616", "LOW is a number of 0 to 18446744073709551615"),
    ("word 0 +1", "LOW is a number of 0 to 18446744073709551615"),
    ("word 0 1 2", "2"),
    ("word 0 1 --address 2", "--address"),
    ("link hello.img", "Usage: cherisim [COMMAND]"),
    ("asm hello.s hello.s", "Usage: cherisim asm [OPTIONS] <IN> <OUT>"),
    ("image hello.bin hello.img --mode=-1", "Usage: cherisim image [OPTIONS] <FLAT> <OUT>"),
    ("go hello.s --steps 0", "Usage: cherisim go [OPTIONS] <FILE>"),
    ("run hello.img 0", "Usage: cherisim run [OPTIONS] <IMAGE> <STEPS>"),
    ("run hello.img 5 --trace-from 2", "Usage: cherisim run [OPTIONS] <IMAGE> <STEPS>"),
    ("run hello.img", "Usage: cherisim run "),
    ("run hello.img 5 --speed 9", "Usage: cherisim run "),
    ("audit hello.img 0", "Usage: cherisim audit [OPTIONS] <IMAGE> <STEPS>"),
    ("dis - --symbols -", "Usage: cherisim dis [OPTIONS] <IMAGE>"),
    ("debug -", "Usage: cherisim debug [OPTIONS] <IMAGE>"),
    ("bounds 0x", "Usage: cherisim bounds [OPTIONS] <BASE> [LENGTH]"),
    ("word x 0", "Usage: cherisim word [OPTIONS] <HIGH> <LOW>"),
    ("debug -", "debug reads its commands from standard input"),
    ("debug hello.img --input -", "debug reads its commands from standard input"),
    ("debug hello.img --symbols=-", "debug reads its commands from standard input"),
    ("run - 5 --input -", "- is standard input"),
    ("run - 5 --policy hello.policy --symbols -", "- is standard input"),
    ("go hello.s --input=- --policy=-", "- is standard input"),
    ("audit hello.img 5 --symbols - --policy -", "- is standard input"),
    ("asm - -", "a file that is written"),
    ("run - 5 --trace -", "a file that is written"),
    ("dis hello.img --flat-elf", "--flat-elf"),
    ("bounds x 0", "BASE is a number of 0 to 18446744073709551615"),
    ("bounds 0 +1", "LENGTH is a number of 0 to 18446744073709551615"),
    ("bounds 0 1 --address 0X1", "--address takes a number of 0 to 18446744073709551615"),
]

# A command line that asks for help, and what its text names.
HELPED = [
    ("go --help", "--steps"),
    ("go --help", "10000000000"),
    *(("--help", named) for named in ("asm", "image", "go", "run", "dis", "debug", "bounds", "word", "Example")),
    ("asm --help", "OUT"),
    ("asm --help", "--symbols"),
    ("image --help", "--pages"),
    ("image --help", "--flat-elf"),
    ("dis --help", "IMAGE"),
    ("dis --help", "--header"),
    ("dis --help", "Begin with the image's header and capabilities, as comments"),
    ("debug --help", "standard input"),
    ("debug --help", "--symbols"),
    ("run --help", "100000000"),
    ("run --help", "--tick"),
    ("run --help", "--times"),
    ("run --help", "--quiet"),
    ("run --help", "--profile"),
    ("run --help", "--calls"),
    ("go --help", "--calls"),
    ("run --help", "--trace"),
    ("run --help", "--trace-from"),
    ("run --help", "--trace-last"),
    ("run --help", "--why=all"),
    ("run --help", "--policy"),
    ("run --help", "--json"),
    ("audit --help", "--policy"),
    ("audit --help", "--json"),
    ("--help", "audit"),
    ("run --help", "--symbols"),
    ("debug --help", "--input"),
    ("bounds --help", "--address"),
    ("bounds --help", "a number alone is LENGTH"),
    ("bounds --help", "--json"),
    ("word --help", "--memory"),
    ("word --help", "--json"),
]

# An instruction and three bytes that are no word, and another section of an instruction at a place that is no multiple of 4, and a word
# that is not an instruction.
LISTED = ".word 0x100005b7\n.byte 0x0a, 0xff, 0\n.org 0x80000102\n.byte 0x23, 0x80, 0xa5, 0\n.word 0"
LISTING = """0000000080000000 100005b7 lui a1, 0x10000
0000000080000004 .byte 0x0a
0000000080000005 .byte 0xff
0000000080000006 .byte 0x00
0000000080000102 00a58023 {}
0000000080000106 00000000 .word 0x00000000
"""

# An instruction and three bytes that are no word.
CUT = ".word 0x100005b7\n.byte 0x0a, 0xff, 0"
CUT_LISTING = """0000000080000000 100005b7 lui a1, 0x10000
0000000080000004 .byte 0x0a
0000000080000005 .byte 0xff
0000000080000006 .byte 0x00
"""
CUT_LABELS = [(0x80000005, "a"), (0x80000000, "start"), (0x80000005, "b"), (0x80000000, "begin"), (0x80000005, "a.longer.name")]

# A jump forth, a word and two branches back, and two bytes that are no word; another section of an instruction, a jump out of RAM, and a
# byte.
JUMPS = ".word 0x00c0006f, 0x13, 0x0, 0xfe000ce3, 0xfe0ff8e3\n.byte 1, 2\n.org 0x80000102\n.word 0x13, 0xf7fff06f\n.byte 3"
JUMPS_LISTING = """0000000080000000 00c0006f jal zero, .+12
0000000080000004 00000013 addi zero, zero, 0
0000000080000008 00000000 .word 0x00000000
000000008000000c fe000ce3 beq zero, zero, .-8
0000000080000010 fe0ff8e3 bgeu t6, zero, .-16
0000000080000014 .byte 0x01
0000000080000015 .byte 0x02
0000000080000102 00000013 addi zero, zero, 0
0000000080000106 f7fff06f jal zero, .-130
000000008000010a .byte 0x03
"""
# Two and three labels at one address, in two orders; at a byte that is no part of a word; inside a word; and outside the image, where
# one names a target that has no nearer one, and one is too far below.
TABLES = [
    [],
    [(0x80000004, "one"), (0x80000004, "two")],
    [(0x80000004, "two"), (0x80000000, "start"), (0x80000004, "one"), (0x8000000c, "last"), (0x80000004, "three")],
    [(0x80000015, "odd"), (0x80000014, "even"), (0x80000015, "odd.too"), (0x8000010a, "end"), (0x8000010a, "_"), (0x80000015, "odd")],
    [(0x80000001, "within"), (0x8000000e, "half"), (0x80000001, "within.too"), (0x80000104, "half")],
    [(0, "zero"), (0x7ffff001, "below"), (0x7ffff001, "below.too"), (0x80000016, "after"), (0x80000103, "odd"),
     (0xffffffffffffffff, "top")],
    [(0x7ffff000, "far"), (0x80000100, "before"), (0x80000100, "before.too"), (0x8000010b, "past"), (0x8000010b, "past.too")],
]
# So many labels at one address, between labels of others.
MANY = 2000
MANY_LABELS = [(0x80000000, "start"), *((0x80000008, f"l{number}") for number in range(MANY)), (0x80000000, "begin"), (0x8000000c, "last")]

# How many bytes the sink of a listing takes a call.
MOST = 7

# Sends three bytes that it receives, and halts with 0.
ECHO = ["lui a1, 0x10000", "li a2, 3", "loop: ld a0, 16(a1)", "beq a0, zero, loop", "ld a0, 8(a1)", "sb a0, 0(a1)", "addi a2, a2, -1",
        "bne a2, zero, loop", "lui a1, 0x100", "sd zero, 0(a1)"]

# Takes a byte, and asks twice whether one waits.
WAITING = ["lui a1, 0x10000", "ld a0, 8(a1)", "ld a0, 16(a1)", "ld a2, 16(a1)"]

# Loads the time four times.
TIMES = ["lui a1, 0x200c", "ld a0, -8(a1)", "ld a2, -8(a1)", "ld a3, -8(a1)", "ld a4, -8(a1)"]


def plans():
    yield "# a command line => its plan"
    yield from (f"{('cherisim ' + words).rstrip()} => {plan}" for words, plan in PLANS)
    yield "# a command line ? what its refusal names => refused"
    yield from (f"cherisim {words} ? {named} => refused" for words, named in REFUSED)
    yield "# a command line ? what its help names => help"
    yield from (f"cherisim {words} ? {named} => help" for words, named in HELPED)


def listings():
    yield "# a text => how often a call of the sink has failed, and the listing of its image"
    for mode, store in enumerate(("sb a0, 0(a1)", "csb a0, 0(ca1)")):
        yield f"{quoted(f'.mode {mode}' + chr(10) + LISTED)} => whole 0 {quoted(LISTING.format(store))}"
    yield "# a text and the call that fails, from 0: each line is written by itself, seven bytes a call"
    pieces = [row[at:at + MOST] for row in CUT_LISTING.splitlines(keepends=True) for at in range(0, len(row), MOST)]
    for call in range(len(pieces)):
        yield f"{quoted(CUT)} {call} => cut 1 {quoted(''.join(pieces[:call]))}"
    yield f"{quoted(CUT)} {len(pieces)} => whole 0 {quoted(CUT_LISTING)}"
    yield "# a text and a table of symbols => the same, with names; and with the call that fails"
    for table in (*TABLES, MANY_LABELS):
        yield f"{quoted(JUMPS)} {quoted(table_text(table))} => whole 0 {quoted(named(JUMPS_LISTING, table))}"
    rows = named(CUT_LISTING, CUT_LABELS)
    pieces = [row[at:at + MOST] for row in rows.splitlines(keepends=True) for at in range(0, len(row), MOST)]
    for call in range(0, len(pieces), 2):
        yield f"{quoted(CUT)} {quoted(table_text(CUT_LABELS))} {call} => cut 1 {quoted(''.join(pieces[:call]))}"


def scheduled(program, steps, gap, tick, keys, seen):
    """A run of so many steps, with a byte of the keys each so many steps, and ticks. After the keys the byte that can't be sent."""
    return line(0, program, f"scheduled {steps} {gap} {tick} {keys or '-'}", seen)


def runs():
    yield "# mode | statements | deeds and queries => answers, as of programs"
    yield "# scheduled: steps, gap, tick, the bytes that come, and the number of the byte that can't be sent"
    yield "# the first image halts with its fifth step"
    for steps in (5, 4):
        yield scheduled(FIRST_IMAGE, steps, 1000, 100, "", "end; halted; sent")
    yield "# an echo; the third byte comes before step 2001"
    yield scheduled(ECHO, 22, 1, 100, "ABC", "end; sent")
    yield scheduled(ECHO, 2000, 1000, 0, "ABC", "end; sent")
    yield "# of the same echo a byte can't be sent: the run ends after the step that sends it, the sixth of each turn"
    for count in range(4):
        yield scheduled(ECHO, 22, 1, 100, f"ABC {count}", "end; sent; minstret; halted")
    yield "# bytes come just before their step, and ticks just after"
    yield scheduled(WAITING, 4, 3, 0, "AB", "a0; a2; mtime")
    yield scheduled(TIMES, 5, 1, 2, "", "a0; a2; a3; a4")
    yield "# after the step that halts no tick comes"
    yield scheduled(FIRST_IMAGE, 9, 1, 1, "", "mtime")
    yield "# verdicts"
    for number in (0, 1, -1):
        yield line(0, ["lui a1, 0x100", f"addi a0, zero, {number}", "sd a0, 0(a1)"], "steps 3; verdict")
    yield line(0, FIRST_IMAGE, "steps 4; verdict")


def files():
    yield "plans.txt", plans()
    yield "listings.txt", listings()
    yield "runs.txt", runs()
