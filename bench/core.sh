#!/bin/sh
# Measures the machine of one proxy: a cached read of one key again and again and of keys at random, a read by which its key comes to be
# held, a write through its owner and a range that is passed on, alone, beside 100,000 keys that are held and 1,000 requests that wait, and
# beside 10,000 watches that stand on 1,000 keys; and the bytes that a held key, an unanswered request and a watch take. The times are the
# program's processor time, from asking to the reply, over what reading the same lines takes, each the least of several tries; where the
# system allows it, the program runs before all else. Keys have ten bytes and values a hundred. Behind each line stands which marks are met,
# and the status tells whether all are. The marks are about the reads of one key: keys at random lie in lines of memory that no cache holds,
# so they take longer by the processor's wait for them.
#
# usage: sh bench/core.sh [PROGRAM [PART [instructions]]]
#
# It takes another build of the program, and a number by which all these counts are divided. With `instructions` the machine's instructions
# are counted in place of its time, by valgrind: they tell what the machine does itself, whatever memory and the other work on the computer
# take. The program is proved and built first, where it isn't yet.
set -eu
cd "$(dirname "$0")/../crates/core_trial"
program=${1:-./out/core_trial}
[ -x "$program" ] || rt run < stdin > /dev/null
exec python3 ../../bench/core.py "$program" "${2:-1}" "${3:-ns}"
