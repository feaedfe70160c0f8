# Prints each line of a script whose reply isn't OK: which reply it is, the line of the file, what the line asks, and the reply.
#
#   LC_ALL=C awk -v replies=REPLIES -f examples/failed.awk SCRIPT
#
# Each line of a script gets one reply, in order, and an OK says how many lines follow it. The bytes behind a submit or a
# deck are passed over. A line that is no request (REFUSED 40 form) takes no bytes: the desk reads them as lines too. At the
# first line without a reply it ends.

skip > length($0) {
    skip -= length($0) + 1
    next
}

{
    line = substr($0, skip + 1)
    skip = 0
    number += 1
    if ((getline reply < replies) <= 0) {
        print number ": line " NR ": " line ": no reply"
        exit
    }
    split(reply, told, " ")
    if (told[1] != "OK") {
        print number ": line " NR ": " line ": " reply
    } else {
        for (left = told[2]; left > 0; left -= 1) {
            getline listed < replies
        }
    }
    if (reply != "REFUSED 40 form") {
        split(line, word, " ")
        if (word[1] == "submit") {
            skip = word[4]
        } else if (word[1] == "deck") {
            skip = word[2]
        }
    }
}
