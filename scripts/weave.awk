# Prints a script, `> ` before each line, with the reply to each line below it. After pairing.awk.
# usage: awk -f pairing.awk -f weave.awk SCRIPT REPLIES; ends with 1 where lines and replies do not pair.
BEGIN {
    script = ARGV[1]; replies = ARGV[2]
    while ((getline line < script) > 0) {
        line = without_return(line)
        print (line == "" ? ">" : "> " line)
        if (is_silent(line)) continue
        if ((getline reply < replies) <= 0) exit 1
        print reply
        for (rest = following(reply); rest > 0; rest--) {
            if ((getline reply < replies) <= 0) exit 1
            print reply
        }
    }
    exit ((getline reply < replies) > 0)
}
