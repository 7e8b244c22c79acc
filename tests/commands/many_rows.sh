# The case of 64 routers without links and 3,125 groups, whose run has 200,000 rows when nothing is fed, and what
# belongs to it. Each script of a case beside this file that needs it reads it by `source`.

# The names of the routers, a0 to h7.
names() {
    printf '%s\n' {a..h}{0..7}
}

# The case whose feed has these lines.
many_rows() {
    printf 'defined 1\nperiod 1\ngroups 3125\nseed 0\n'
    names | sed 's/.*/router & flood/'
    printf 'feed\n%bend\n' "$1"
}

# The feed of one command, by which the run has one row more than a trace shows.
ONE_MORE='@7 a0 cmd 41\n'

# The rows of the run: in each group a tick at each router, and in group 7 the command when it is fed.
rows() {
    names | awk -v more="$1" '
        { name[NR - 1] = $0 }
        END {
            for (group = 0; group < 3125; group++) {
                for (router = 0; router < 64; router++)
                    printf "%d 0 t 0000000000000000 %d 0 %s tick\n", group, router, name[router]
                if (group == 7 && more != "") print "7 0 x 0000000000000000 0 0 a0 cmd 41"
            }
        }'
}

# The trace of the run that nothing is fed.
whole_trace() {
    echo trace
    rows ''
    names | sed 's/.*/state & 0 0000 0000/'
    echo end trace 200000
}

# The trace of the run with one row more.
cut_trace() {
    echo trace
    rows more | sed -n 1,200000p
    echo cut 200000
}

# The first 203,128 steps of a journal by which the run with one row more handles all it has, group by group, and commits.
all_steps() {
    echo journal
    names | awk '
        { name[NR - 1] = $0 }
        END {
            for (group = 0; group < 3125; group++) {
                if (group != 0) print "beacon"
                if (group == 7) print "inject @7 a0 cmd 41\nhandle a0"
                for (router = 0; router < 64; router++) print "handle " name[router]
            }
            print "close\ncommit"
        }'
}
