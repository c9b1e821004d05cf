# Sourced by test scripts that try wrong programs.

# edited OLD NEW FILE: prints the file with NEW in OLD's place. OLD must stand in one of its lines and in no other.
edited() {
    OLD=$1 NEW=$2 awk '
        BEGIN { old = ENVIRON["OLD"]; new = ENVIRON["NEW"] }
        {
            at = index($0, old)
            if (at > 0) {
                n++
                $0 = substr($0, 1, at - 1) new substr($0, at + length(old))
            }
            print
        }
        END { exit n != 1 }' "$3"
}
