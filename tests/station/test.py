"""test.py BUILD [PART ...] - the program lavushmir from end to end. BUILD holds
plain/ and checked/ (with sanitizers) as station/build.sh makes them, any (any.c
with the C side) and shim.so. Only the standard library."""
import os, signal, sys, time

sys.path.insert(1, os.path.join(os.path.dirname(os.path.abspath(__file__)), "../files"))
import answers, conversions, damages, faults, program, sessions, stations, statuses

if __name__ == "__main__":
    for number in (signal.SIGINT, signal.SIGHUP):  # also where the tests were started without them
        signal.signal(number, signal.SIG_DFL)
    os.chdir(program.B)
    stations.make_roms()
    for part in (answers, statuses, sessions, damages, faults, conversions):
        if len(sys.argv) > 2 and part.__name__ not in sys.argv:  # for work on one part
            continue
        began = time.time()
        part.main()
        print("  %.1f s" % (time.time() - began), flush=True)
    print("columns: the widest line has %d" % program.widest[1])
