# Divides the instructions of one operation by part of the work, and prints a table:
#   awk -v side=SIDE -v total=FILE -f bench/parts.awk SYMBOLS TRACE
# SIDE is whose operation it is, and FILE gets the number of its instructions. The parts are ours: of a peer the number alone is of use.
# SYMBOLS is `nm -C` of the program, sorted. TRACE (- for standard input) is the emulator's log by `-d nochain,exec,op`: each block of
# instructions when it is translated, with every instruction's address, and a block's address each time that it runs.
#
# The list has the parts in the order in which they follow one another: a name, and the functions that do it, as nm names them, or the
# beginning of their names up to "::". What runs from a call of such a function until its caller goes on belongs to the part, and so does what
# the caller runs between two such calls. What it runs between calls of two different parts belongs to the first part without functions that
# stands between them in the list, and where there is none, to the later one. A function may stand in several parts: a call belongs to the
# first of them that is not over. A part is over when a later one begins, or after so many calls, where a number is given. Parts of the same
# name are one row of the table. A call must come back to its caller, and must not run the caller inside it.
BEGIN {
    part("admission", "admission::")
    part("making ready: edges and half-edges", "ready_solids::ready")
    part("clearing the lists of crossings", "")
    part("crossings found, with boxes", "crossings_found::find_kind")
    part("inclusions of vertices", "inclusions::include_side")
    part("numbers, marks by edge and by facet", "")
    part("triangles counted", "triangle_count::tell_line composite_ends::Crossed::pair_ends")
    part("writing of the points", "")
    part("pieces and triangles, written", "edge_pieces::half_pieces composite_ends::Crossed::pair_ends result_triangles::boundary::row")
    operation = "measured_" side
    FS = "/"
}

function part(name, functions, most) {
    does[++parts] = functions
    limit[parts] = most + 0
    if (!(name in row_of)) {
        row_of[name] = ++rows
        names[rows] = name
    }
    row[parts] = row_of[name]
}

# Whether function f stands in part r.
function stands(f, r,    i, n, fs) {
    n = split(does[r], fs, " ")
    for (i = 1; i <= n; i++) {
        if (f == fs[i] || (fs[i] ~ /::$/ && index(f, fs[i]) == 1)) {
            there[fs[i]] = 1
            return 1
        }
    }
    return 0
}

# The part that a call of f belongs to; 0 where the call is out of the list's order.
function part_of(f,    r) {
    for (r = at; r <= parts; r++) {
        if (stands(f, r) && (limit[r] == 0 || calls[r] < limit[r])) {
            return r
        }
    }
    return 0
}

# The part of what runs between the calls of the present part and of part r.
function part_before(r,    p) {
    for (p = at + 1; p < r; p++) {
        if (does[p] == "") {
            return p
        }
    }
    return r > parts ? at : r
}

# What the caller ran since the last call; part r comes next.
function put_down(r,    to) {
    to = row[part_before(r)]
    count[to] += run
    own[to] += run
    repeats[to] += repeated
    run = 0
    repeated = 0
}

# The number of the function that an address stands in: the last one that does not begin behind it.
function function_at(pc,    low, high, middle) {
    low = 0
    high = symbols + 1
    while (high - low > 1) {
        middle = int((low + high) / 2)
        if (address[middle] <= pc) {
            low = middle
        } else {
            high = middle
        }
    }
    return low
}

# A number with a comma before every three digits.
function shown(n,    s, t) {
    s = sprintf("%.0f", n)
    for (t = ""; length(s) > 3; s = substr(s, 1, length(s) - 3)) {
        t = "," substr(s, length(s) - 2) t
    }
    return s t
}

FNR == NR && /^[0-9a-f]+ [tTwW] / {
    address[++symbols] = substr($0, 1, 16) ""
    name = substr($0, 20)
    if (name == operation) {
        first = address[symbols]
    }
    for (r = 1; r <= parts; r++) {
        if (stands(name, r)) {
            watched[address[symbols]] = name
        }
    }
}

FNR == NR {
    next
}

# A block runs. Nothing counts before the operation and behind it.
/^Trace / {
    pc = $2
    if (!started) {
        if (pc != first) {
            before = pc
            next
        }
        started = 1
        outside = home[before]
    }
    if (inside && home[pc] == caller) {
        inside = 0
    }
    if (!inside) {
        if (home[pc] == outside) {
            ended = 1
            exit
        }
        if (pc in watched) {
            r = part_of(watched[pc])
            if (r == 0) {
                strays[watched[pc]]++
            } else {
                put_down(r)
                at = r
                calls[r]++
                inside = 1
                caller = home[before]
            }
        }
    }
    # An instruction that repeats itself (rep stos) is a block of its own from the second time on.
    again = pc == last[before]
    if (inside) {
        count[row[at]] += many[pc]
        repeats[row[at]] += again
    } else {
        run += many[pc]
        repeated += again
    }
    before = pc
    next
}

/^OP:/ {
    fresh = 1
}

/^ ---- / {
    pc = substr($0, 7, 16) ""
    if (fresh) {
        block = pc
        many[block] = 0
        home[block] = function_at(pc)
        fresh = 0
    }
    many[block]++
    last[block] = pc
}

END {
    if (!ended) {
        print "parts: the trace has no whole operation"
        exit 1
    }
    put_down(parts + 1)
    for (k = 1; k <= rows; k++) {
        all += count[k]
        all_own += own[k]
        all_repeats += repeats[k]
    }
    print "| Part | Instructions | Share | Outside its functions | Repeats |"
    print "|---|--:|--:|--:|--:|"
    for (k = 1; k <= rows; k++) {
        printf "| %s | %s | %.1f %% | %s | %s |\n", names[k], shown(count[k]), 100 * count[k] / all, shown(own[k]), shown(repeats[k])
    }
    print shown(all) >total
    printf "| together | %s | | %s | %s |\n", shown(all), shown(all_own), shown(all_repeats)
    for (r = 1; r <= parts; r++) {
        n = split(does[r], fs, " ")
        for (i = 1; i <= n; i++) {
            if (!(fs[i] in there)) {
                there[fs[i]] = 1
                print "parts: the program has no function " fs[i]
            }
        }
    }
    for (f in strays) {
        print "parts: " strays[f] " calls of " f " out of the list's order"
    }
}
