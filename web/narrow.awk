# Makes the library's module, which is for 64-bit pointers, one for the 32-bit pointers of WebAssembly:
# awk -f web/narrow.awk MODULE
#
# MODULE is LLVM's text, as tools/archive keeps it. Only the target, the layout and the processor's words change. Why it
# may be done: what a pointer's size could change is not in the module, and this program stops where it is. That is:
# - memory is bytes, at places that are written out (`getelementptr i8`), so a pointer in memory has eight bytes to
#   itself and now fills four of them; nothing but a load or a store of a pointer looks at them;
# - a variable that is a pointer (`alloca ptr`) is loaded and stored as a pointer, and never as eight bytes;
# - no pointer becomes a number and no number a pointer;
# - a structure has two members, which are whole numbers of at most 64 bits: both stand where they stood, as for both
#   kinds of pointers a number stands at a multiple of its own size. None has a name, is packed, or has a pointer in it;
# - nothing is called outside of the module;
# - lengths and places are numbers of 64 bits, as they were; an address is below 2^32, and so is what is added to it.

function fail(what) {
    printf "narrow: line %d %s: %s\n", FNR, what, $0 > "/dev/stderr"
    failed = 1
    exit 1
}

/^target datalayout = / { next }
/^target triple = / { $0 = "target triple = \"wasm32-unknown-unknown\""; triples++ }
/^attributes / { gsub(/ "(target-cpu|probe-stack|stack-probe-size)"="[^"]*"/, "") }

/^define / { split("", pointers) }
/^declare / && !/@llvm\.((memmove|memcpy)\.p0\.p0\.i64|memset\.p0\.i64|trap|(ctpop|cttz|ctlz)\.i[0-9]+)\(/ {
    fail("declares something else")
}
/^@/ && !/ constant \[[0-9]+ x i8\] / { fail("is memory of another type than bytes") }
/ptrtoint|inttoptr|addrspacecast|bitcast/ { fail("turns a pointer into something") }
/x86|^module asm|call [^@]* asm / { fail("speaks of another processor") }
/ getelementptr / && !/ getelementptr (inbounds )?(nuw )?i8, ptr [%@][^,]+, i64 / { fail("has a place that is not counted in bytes") }
/ = alloca / && !/ = alloca (i[0-9]+|ptr|\[[0-9]+ x i8\]), align [0-9]+$/ { fail("is a variable of another type") }
/^%.* = type|<\{/ { fail("has a structure") }
!/^[@!]|^attributes / {
    rest = $0
    while (at = index(rest, "{ ")) {
        rest = substr(rest, at)
        if (rest !~ /^\{ i(8|16|32|64), i(8|16|32|64) \}/) fail("has a structure")
        rest = substr(rest, 2)
    }
}

# A variable that is a pointer, and every line that names one.
/ = alloca ptr, / { pointers[$1]; print; next }
{
    rest = $0
    while (match(rest, /%[A-Za-z0-9_.]+/)) {
        name = substr(rest, RSTART, RLENGTH)
        rest = substr(rest, RSTART + RLENGTH)
        if (!(name in pointers)) continue
        is_loaded = $0 ~ /^  %[A-Za-z0-9_.]+ = load ptr, ptr %[A-Za-z0-9_.]+, align 8/
        is_stored = $0 ~ /^  store ptr [^ ]+, ptr %[A-Za-z0-9_.]+, align 8/
        if (!is_loaded && !is_stored) fail("looks at a pointer's bytes")
        if (is_stored && index($0, "store ptr " name ",")) fail("tells where a pointer stands")
    }
    print
}

END { if (!failed && triples != 1) { print "narrow: the module names no target" > "/dev/stderr"; exit 1 } }
