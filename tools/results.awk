# The module of a static library, for a machine that is not x86-64:
#     awk -v name=LIBRARY -v crate=CRATE -f tools/results.awk
# The crate exports functions whose names begin with the library's. It returns a struct as C on
# x86-64 does: one of more than 16 bytes through a pointer that the function takes first and gives
# back. `sret` says that this is what the pointer is for; then it comes by the machine's own way, and
# one header serves both. The size is that of the struct that the function behind copies there. A
# smaller struct comes in two registers, here as there.
BEGIN { exported = "^define noundef ptr @" name "_[a-z0-9_]+\\(ptr noundef %a0" }

# the function behind an exported one stands before it
/^define / { behind = "" }
/^define internal void @"/ { split($0, part, "\""); behind = part[2] }
behind != "" && /@llvm\.memmove\.p0\.p0\.i64\(ptr %a0, ptr %r[0-9]+, i64 [0-9]+,/ {
    split($0, part, "i64 ")
    size[behind] = part[2] + 0
}

$0 ~ exported {
    split($0, part, /[@(]/)
    bytes = size[crate "::" part[2]]
    if (!bytes) {
        print "tools/results.awk: no size of the result of " part[2] > "/dev/stderr"
        exit 1
    }
    sub(/^define noundef ptr /, "define void ")
    sub(/\(ptr noundef /, "(ptr noundef sret([" bytes " x i8]) ")
    returns = 1
}
returns && /^  ret ptr %a0$/ { print "  ret void"; next }
/^}/ { returns = 0 }
{
    sub(/"target-cpu"="x86-64[^"]*"/, "")
    print
}
