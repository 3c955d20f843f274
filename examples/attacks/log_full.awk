# The text of log_full by the numbers of log_full.S: it is long, and isn't kept.
BEGIN {
        records = 2621
        print "k 7 10 4 0 0 - 256 ffffff8000010000"
        for (number = 0; number < records; number++)
                print "k 9 100 0 ffffffff80001000 1 61 0 -"
        print "k 9 100 0 ffffffff80001000 1 62 26 -"
        print "end halted"
        print "turns " 28 + records * 27 + 27
        print "root 5"
        print "trap ffffff80000011da"
        print "r 256 4 ffffff8000010000 16 61000000000000000000000000000000"
        for (number = 0; number < records; number++)
                print "l " number " 256 0 61"
}
