"""The inputs of the ledger's tests, and what it has to answer by the reference (ledger.py): python3 reference/ledger_tests.py

writes crates/ledger/stdin and stdout, an input of the filter with every kind of line and its answers; in crates/keeping, for the kept way,
data/journal, the file that is found, stdin, and stdout, the answers, a line `--` and the journal as it is left; and examples/*.expected, the
answers to examples/*.journal.

The lines below and the examples are written by hand. Where one has a comment `#= ANSWER`, that is what the paper and the journal's grammar ask
for, worked out by hand; what follows a ` | ` there is for people, and the line number of an `error` is left out. The script exits 1 if the
reference answers otherwise. Further lines are drawn from a fixed seed: histories of histories.py written in many ways, and lines damaged at
random.
"""
import contextlib
import io
import os
import random
import re
import subprocess
import sys
import tempfile

sys.dont_write_bytecode = True

import histories
import ledger
import reading

ROOT = os.path.dirname(os.path.dirname(os.path.abspath(__file__)))
SEED = 1

BEFORE = br'''
\xef\xbb\xbf# A byte order mark. Every kind of line, every refusal, every error. What stands behind `#=` is the answer that is due.

# ---- Before any `fresh` the book is the fresh book of day 0.
calls                                   #= calls 0
report
statement 0                             #= refused 2
advance 0 0                             #= opened 0
admit 0 supplier                        #= done
settle 0 0 1 2 3 4 5                    #= refused 12 | month 0: no month is two months back
calls                                   #= calls 1
advance 10 100                          #= opened 10
statement 0                             #= statement 0 0 0 0 0 1 | the last free day
advance 2020-01-12 100                  #= opened 1
statement 0                             #= statement 2000000 0 2000000 1 100000000 1
report

# ---- Each call, accepted.
fresh 2022-03-01                        #= done | day 790, month 26
admit 0 supplier                        #= done
admit 1 0                               #= done | supplier
admit 2 trader                          #= done
admit 3 producer                        #= done
admit 4 res-aggregator                  #= done
admit 63 demand-response                #= done
calls                                   #= calls 3
lodge 0 0 cash 2000000                  #= done
lodge 1 7 letter 2500000 2022-03-01 2022-03-31  #= done
lodge 2 0 letter 1000000 0 29219        #= done
lodge 2 1 cash 1                        #= done
lodge 2 2 cash 1000000000000            #= done
statement 0                             #= statement 0 2000000 0 0 0 1
statement 1                             #= statement 0 2500000 0 0 0 1
statement 2                             #= statement 0 1000001000001 0 0 0 1
release 2 2 1000000000000               #= done
release 2 0 1000000                     #= refused 16 | a whole letter; the minimum is called
release 2 1 1                           #= done
settle 0 2022-01 2399999 0 0 0 0        #= covered 2399999 | one cent below 20%
settle 0 2022-01 2400000 0 0 0 0        #= called 2400000 400000 800 | 20% exactly
settle 0 24 -1 -2 -3 -4 -5              #= covered -15
settle 0 2021-12 1 2 3 4 5              #= recorded 15 | three months back: no check
settle 0 12 1 2 3 4 5 6 7 8 9 10 11 12 13 14 15 16  #= recorded 136 | fourteen months back
settle 3 2022-01 5 0 0 0 0              #= called 5 5 800
settle 63 2022-01 0 0 0 0 0             #= covered 0
calls                                   #= calls 5
advance 2022-03-11 100                  #= opened 10
statement 0                             #= statement 0 2000000 0 0 0 2 | day 800, the last free day
statement 3                             #= statement 0 0 0 0 0 1
advance 2022-03-31 1                    #= opened 1 | the budget
statement 0                             #= statement 2400000 2000000 400000 1 100000000 2
statement 1                             #= statement 2000000 2500000 0 0 0 1
statement 2                             #= statement 1000000 1000000 0 0 0 1
statement 3                             #= statement 5 0 5 1 100000000 1
lodge 0 1 cash 400000                   #= done
advance 2022-03-31 18446744073709551615 #= opened 19
statement 1                             #= statement 2000000 2500000 0 0 0 1 | the letter's last day
advance 2022-04-01 1                    #= opened 1
statement 1                             #= statement 2000000 0 2000000 1 100000000 1 | it has lapsed
statement 0                             #= statement 2400000 2400000 0 1 100000000 2
statement 3                             #= statement 5 0 5 21 2100000000 1
report
advance 2022-09-01 1000                 #= opened 153
annual 0                                #= annual 2000000 2 | 15 and -15, raised to the minimum
annual 63                               #= annual 0 1
annual 4                                #= annual 0 0
settle 0 2022-07 99999999 0 0 0 0       #= recorded 99999999 | September
settle 0 2022-06 3000000 0 0 0 0        #= recorded 3000000
annual 0                                #= annual 3000000 3
advance 2022-10-01 1000                 #= opened 30
statement 0                             #= statement 3000000 2400000 600000 2 200000000 2
calls                                   #= calls 5

# ---- Every cause of refusal.
fresh 2022-03-01                        #= done
admit 0 0                               #= done
lodge 0 0 cash 2000000                  #= done
lodge 0 1 letter 500 790 790            #= done
admit 1 3                               #= done
# Refusal 1: participant above 63.
admit 64 0                              #= refused 1
admit 64 6                              #= refused 1 | before 4
lodge 64 8 cash 0                       #= refused 1
lodge 18446744073709551615 0 cash 1     #= refused 1
release 64 0 1                          #= refused 1
settle 64 2022-01 1 2 3 4 5             #= refused 1
settle 99999999999999999999999999999999 2022-01 #= refused 1
annual 64                               #= refused 1
statement 64                            #= refused 1
statement 256                           #= refused 1
statement 18446744073709551616          #= refused 1
statement 4294967296                    #= refused 1
# Refusal 2: participant not admitted.
lodge 2 0 cash 1                        #= refused 2
lodge 63 8 letter 0 9 8                 #= refused 2 | before 5, 8, 9
release 2 0 1                           #= refused 2
settle 2 2099-12 1                      #= refused 2 | before 12, 10
annual 63                               #= refused 2 | before 14
statement 2                             #= refused 2
# Refusal 3: admitted already.
admit 0 0                               #= refused 3
admit 1 6                               #= refused 3 | before 4
# Refusal 4: role above 5.
admit 2 6                               #= refused 4
admit 2 18446744073709551616            #= refused 4
admit 63 4294967296                     #= refused 4
# Refusal 23: role 1 at admission, after 4.
admit 2 1                               #= refused 23
admit 2 self-supplied                   #= refused 23
admit 63 000000000000000000000000001    #= refused 23
admit 64 1                              #= refused 1 | before 23
admit 18446744073709551615 self-supplied  #= refused 1
admit 0 1                               #= refused 3 | before 23
admit 1 self-supplied                   #= refused 3
admit 2 257                             #= refused 4 | not role 1
admit 2 4294967297                      #= refused 4
admit 2 18446744073709551617            #= refused 4
statement 2                             #= refused 2 | nobody was admitted
calls                                   #= calls 1
# Refusal 5: position above 7.
lodge 0 8 cash 0                        #= refused 5 | before 8
lodge 0 256 letter 1 790 790            #= refused 5
release 0 8 0                           #= refused 5 | before 7, 8
release 0 18446744073709551615 1        #= refused 5
# Refusal 6: lodging at a filled position.
lodge 0 0 cash 0                        #= refused 6 | before 8
lodge 0 1 letter 0 9 8                  #= refused 6 | a letter on its last day
# Refusal 7: release at an empty position.
release 0 2 0                           #= refused 7 | before 8
release 1 7 1                           #= refused 7
# Refusal 8: lodged or released amount outside 1 to 10^12.
lodge 0 2 cash 0                        #= refused 8
lodge 0 2 cash 1000000000001            #= refused 8
lodge 0 2 cash 18446744073709551616     #= refused 8
lodge 0 2 letter 0 9 8                  #= refused 8 | before 9
release 0 0 0                           #= refused 8
release 0 0 1000000000001               #= refused 8 | before 15
# Refusal 9: letter days against the rule.
lodge 0 2 letter 1 791 790              #= refused 9 | the first day after the last
lodge 0 2 letter 1 789 789              #= refused 9 | the last before today
lodge 0 2 letter 1 790 29220            #= refused 9
lodge 0 2 letter 1 4294967296 4294967296  #= refused 9
lodge 0 2 letter 1 2022-03-02 2022-03-01  #= refused 9
lodge 0 2 letter 1 2020-01-01 2022-02-28  #= refused 9
# Refusal 10: figures fewer than 5 or more than 16.
settle 0 2022-01                        #= refused 10
settle 0 2022-01 1 2 3 4                #= refused 10
settle 0 2022-01 1 2 3 9999999999999    #= refused 10 | before 11
settle 0 2022-01 1 2 3 4 5 6 7 8 9 10 11 12 13 14 15 16 17  #= refused 10
# Refusal 11: a figure, rate, zero settlement or excess out of its range, a mark above 1.
settle 0 2022-01 1000000000001 0 0 0 0  #= refused 11
settle 0 2022-01 0 0 0 0 -1000000000001 #= refused 11
settle 0 2022-01 0 0 0 9223372036854775808 -9223372036854775809  #= refused 11
settle 0 2022-01 1000000000000 -1000000000000 0 0 0  #= covered 0 | the bounds themselves
special 3 100001 0 0 3 0 0 0 3 0 0 0 0 0 0 0        #= refused 11
special 3 0 0 0 3 -100001 0 0 3 0 0 0 0 0 0 0       #= refused 11
special 3 0 0 0 3 0 0 0 3 0 0 2 0 0 0 0             #= refused 11 | a mark above 1
special 3 0 0 0 3 0 0 0 3 0 0 9223372036854775808 0 0 0 0  #= refused 11
special 0 0 0 1 1000000000001 1 0 1 0 1 0           #= refused 11 | before 18
special 0 0 0 1 0 1 -1000000000001 1 0 1 0          #= refused 11
special 0 0 0 1 0 1 0 1 -1 1 0                      #= refused 11 | an excess below 0
special 0 0 0 1 0 1 0 1 0 1 1000000000001           #= refused 11
# Refusal 12: month outside P - 14 to P - 2.
settle 0 2021-01 1 2 3 4 5              #= recorded 15 | fourteen months back
settle 0 2020-12 1 2 3 4 5              #= refused 12 | fifteen
settle 0 2022-02 1 2 3 4 5              #= refused 12 | one
settle 0 2022-03 1 2 3 4 5              #= refused 12
settle 0 2099-12                        #= refused 12 | before 10
settle 0 960 1 2 3 4 99999999999999     #= refused 12 | before 11
settle 0 4294967295 1 2 3 4 5           #= refused 12
settle 0 4294967320 1 2 3 4 5           #= refused 12 | not month 24
settle 0 18446744073709551616 1 2 3 4 5 #= refused 12
# Refusal 13: the call would be a fifth open one.
settle 1 2022-01 100 0 0 0 0            #= called 100 100 800
settle 1 2022-01 200 0 0 0 0            #= called 200 200 800
settle 1 2022-01 300 0 0 0 0            #= called 300 300 800
settle 1 2022-01 400 0 0 0 0            #= called 400 400 800
settle 1 2022-01 500 0 0 0 0            #= refused 13
settle 1 2022-01 400 0 0 0 0            #= covered 400 | not above an open call
settle 1 2021-12 500 0 0 0 0            #= recorded 500 | no check
# Refusal 14: annual run outside 1 to 10 September.
annual 0                                #= refused 14
# Refusal 24: a deletion outside August and September; and in the status already, with 25 and 13, see 'Leaving participants'.
delete 0                                #= refused 24
delete 1                                #= refused 24 | before 13: four calls are open, and 500 is above them
delete 63                               #= refused 2 | before 24
delete 64                               #= refused 1 | before 24
delete 256                              #= refused 1
delete 18446744073709551616             #= refused 1 | not 0
delete 340282366920938463463374607431768211456  #= refused 1
# Refusal 15: release above what is held, or a letter in part.
release 0 0 2000001                     #= refused 15
release 0 1 499                         #= refused 15 | a letter in part
release 0 1 501                         #= refused 15
# Refusal 16: release leaving too little cover.
release 0 0 501                         #= refused 16 | 1999999 would be left
release 0 0 500                         #= done | 2000000 is left
release 0 1 500                         #= refused 16
# Refusal 17: day above 29,219, or T before t.
fresh 29220                             #= refused 17
fresh 18446744073709551616              #= refused 17
advance 29220 0                         #= refused 17 | though no day would be opened
advance 4294967296 1                    #= refused 17 | not day 0
advance 789 5                           #= refused 17 | before today
advance 2022-02-28 0                    #= refused 17
advance 790 5                           #= opened 0
statement 0                             #= statement 0 2000000 0 0 0 1 | a refused fresh leaves the book
# Refusal 18: fewer than three usable rates in a list.
special 2 0 0 3 0 0 0 3 0 0 0 0 0 0 0               #= refused 18
special 3 0 0 0 2 0 0 2 0 0 0 0 0 0                 #= refused 18
special 3 0 0 0 3 0 0 0 3 0 1 0 0 0 0 0             #= refused 18 | one low rate is marked
special 0 0 0 0 0 0 0                               #= refused 18
# Refusal 19: more than 64 rates, marks not as many as low rates, or the four lists unequal or above 16.
special 0 1 0 0 0 0 0 0                             #= refused 19 | a mark is missing
special 0 0 1 0 0 0 0 0                             #= refused 19
special 0 0 0 1 9999999999999 0 0 0                 #= refused 19 | before 11
special 0 0 0 0 1 0 0 0                             #= refused 19
special 0 0 0 0 0 1 0 0                             #= refused 19
special 0 0 0 0 0 0 1 0                             #= refused 19
special 0 0 0 16 <16 1> 16 <16 1> 16 <16 1> 16 <16 1> #= refused 18
special 0 0 0 17 <17 1> 17 <17 1> 17 <17 1> 17 <17 1> #= refused 19
special 64 <64 1> 0 0 0 0 0 0 #= refused 18
special 65 <65 1> 0 0 0 0 0 0 #= refused 19
# The special guarantee, accepted.
special 3 0 0 0 3 0 0 0 3 0 0 0 0 0 0 0             #= special 500000 | the minimum
special 3 126 4 0 3 0 0 0 3 0 0 0 1 1000000000000 1 0 1 0 1 0   #= special 4300000000 | a ratio of 43
special 3 1 0 0 3 0 0 0 3 0 0 0 1 1000000000000 1 0 1 0 1 0     #= special 500000 | 1/3 is nearest to 0
special 3 2 0 0 3 0 0 0 3 0 0 0 1 1000000000000 1 0 1 0 1 0     #= special 100000000 | 2/3 is nearest to 1
special 3 10000 10000 10000 3 0 0 0 3 0 0 0 1 500001 1 0 1 0 1 0      #= special 500001
special 3 10000 10000 10000 3 0 0 0 3 0 0 0 1 1000000 1 0 1 300000 1 100000   #= special 600000 | less all excesses
special 3 1 1 1 3 0 0 0 3 0 0 0 1 9999995000 1 0 1 0 1 0       #= special 1000000 | 999,999.5 cents: halves upward
special 3 1 1 1 3 0 0 0 3 0 0 0 1 9999994999 1 0 1 0 1 0       #= special 999999
special 3 -1 -1 -1 3 0 0 0 3 0 0 0 1 -9999995000 1 0 1 0 1 0   #= special 1000000
special 3 -100000 -100000 -100000 3 0 0 0 3 0 0 0 1 1000000000000 1 0 1 0 1 0  #= special 500000 | below zero
special 5 -5 7 100000 100000 100000 6 100000 1 1 1 1 1 6 1 0 0 0 0 0 2 1000000000000 1000000000000 2 0 0 2 0 0 2 0 0  #= special 20000000000000
special 3 0 0 0 3 0 0 0 3 0 0 0 1 -0 1 -000 1 -0 1 0           #= special 500000 | a minus before a 0

# ---- Every reason of an error.
admit 2 0 \x00                          #= error a control byte
frsh 0                                  #= error no such call
admit 2                                 #= error too few words
admit 2 0 0                             #= error too many words
admit -2 0                              #= error not a number
fresh 2021-02-29                        #= error not a day
settle 0 2021-13 1 2 3 4 5              #= error not a month
admit 2 Trader                          #= error not a role
lodge 0 2 bond 5                        #= error neither cash nor letter
calls                                   #= calls 5 | the book is as before

# ---- The first fault from the left counts.
fresh                                   #= error too few words
fresh x y                               #= error not a day
fresh 0 y                               #= error too many words
fresh -1                                #= error not a day
fresh +1                                #= error not a day
fresh 1.0                               #= error not a day
admit                                   #= error too few words
admit x                                 #= error not a number
admit x y z                             #= error not a number
admit 0 x y                             #= error not a role
admit 0 -1                              #= error not a role
admit 0 +1                              #= error not a role
admit 0 traders                         #= error not a role
admit 0 trade                           #= error not a role
admit 0 self supplied                   #= error not a role
admit 64 self                           #= error not a role
admit 2 1 1                             #= error too many words | before 23
admit 2 self-supplied x                 #= error too many words
admit 0 supplier 0                      #= error too many words
lodge                                   #= error too few words
lodge 0                                 #= error too few words
lodge 0 0                               #= error too few words
lodge 0 0 cash                          #= error too few words
lodge 0 0 letter                        #= error too few words
lodge 0 0 letter 5                      #= error too few words
lodge 0 0 letter 5 0                    #= error too few words
lodge 0 0 letter 5 x                    #= error not a day
lodge 0 0 letter x y z                  #= error not a number
lodge 0 0 letter 5 0 2022-02-30 1       #= error not a day
lodge 0 0 letter 5 0 0 0                #= error too many words
lodge 0 0 cash 5 0 0                    #= error too many words
lodge 0 0 cash -5                       #= error not a number
lodge 0 0 cash 5.00                     #= refused 6 | 5 euros, and the position is filled
lodge 0 0 cash 2,000                    #= error not a number
lodge 0 0 5                             #= error neither cash nor letter
lodge 0 0 Cash 5                        #= error neither cash nor letter
lodge 0 0 cashletter 5                  #= error neither cash nor letter
lodge 0 0 cas 5                         #= error neither cash nor letter
lodge 0 cash 5                          #= error not a number
lodge x 0 bond 5                        #= error not a number
release                                 #= error too few words
release 0 0                             #= error too few words
release 0 0 -1                          #= error not a number
release 0 -0 1                          #= error not a number
release 0 0 1 1                         #= error too many words
settle                                  #= error too few words
settle 0                                #= error too few words
settle x                                #= error not a number
settle 0 x                              #= error not a month
settle 0 2022-01-01 1 2 3 4 5           #= error not a month
settle 0 -1 1 2 3 4 5                   #= error not a month
settle 0 2022-01 1 2 3 4 x              #= error not a number
settle 0 2022-01 1 2 x 4 -              #= error not a number
settle 0 2022-01 1 2 3 4 +5             #= error not a number
settle 0 2022-01 1 2 3 4 --5            #= error not a number
settle 0 2022-01 1 2 3 4 -              #= error not a number
settle 0 2022-01 1 2 3 4 5-             #= error not a number
settle 0 2022-01 1 2 3 4 5e3            #= error not a number
settle 0 2022-01 1 2 3 4 5 6 7 8 9 10 11 12 13 14 15 16 17 x  #= error not a number | before 10
settle 64 2099-12 x                     #= error not a number | before 1 and 12
annual                                  #= error too few words
annual x                                #= error not a number
annual 0 0                              #= error too many words
delete                                  #= error too few words
delete x                                #= error not a number
delete -1                               #= error not a number
delete -0                               #= error not a number
delete +0                               #= error not a number
delete 0x0                              #= error not a number
delete 0.0                              #= error not a number
delete 2022-09-01                       #= error not a number
delete supplier                         #= error not a number
delete 0 0                              #= error too many words
delete 0 x                              #= error too many words
delete x 0                              #= error not a number
delete 64 0                             #= error too many words | before 1
delete 0 delete 0                       #= error too many words
delete delete                           #= error not a number
advance                                 #= error too few words
advance 2022-03-01                      #= opened 0 | a budget isn't needed
advance x                               #= error not a day
advance 790 x                           #= error not a number
advance 790 -1                          #= error not a number
advance 790 2022-03-01                  #= error not a number
advance 790 0 0                         #= error too many words
statement                               #= error too few words
statement 0x0                           #= error not a number
statement 0 0                           #= error too many words
calls 0                                 #= error too many words
report 0                                #= error too many words
special                                 #= error too few words
special 0 0 0 0 0 0                     #= error too few words
special 0 0 0 0 0 0 0 0                 #= error too many words
special -1                              #= error not a number
special 1                               #= error too few words
special 1 x                             #= error not a number
special 3 1 2                           #= error too few words
special 3 1 x                           #= error not a number
special 18446744073709551616 1 2 3      #= error too few words
special 18446744073709551616 1 2 x 3    #= error not a number
special 0 0 1 -1 0 0 0 0                #= error not a number | a mark with a minus
special 0 0 1 -0 0 0 0 0                #= error not a number
special 0 0 0 0 0 0 1 +1                #= error not a number
Calls                                   #= error no such call
CALLS                                   #= error no such call
call                                    #= error no such call
callss                                  #= error no such call
refused 1                               #= error no such call
0                                       #= error no such call
-                                       #= error no such call
statement calls                         #= error not a number

# ---- Blanks, comments, control bytes and other bytes.



#
##
   # a comment behind blanks
	#	tabs
\r
 \t \r \t
\r#\x00\x01\x7f\xff control bytes in a comment
\t\tcalls\t\t                           #= calls 5
\rcalls\r                               #= calls 5
 statement \t\r 0 \r                    #= statement 0 2000000 0 0 0 1
statement\t0\t#= statement 0 2000000 0 0 0 1
calls#= calls 5
calls# and more # and more
stat#ement 0
statement #0
statement 0#0
admit 2 trader#s
statement 2                             #= statement 0 0 0 0 0 1 | admitted as a trader
statement 0\x0b                         #= error a control byte
statement\x0c0                          #= error a control byte
\x00                                    #= error a control byte
\x00calls                               #= error a control byte
calls\x00                               #= error a control byte
calls \x01                              #= error a control byte
calls \x08                              #= error a control byte
calls \x0e                              #= error a control byte
calls \x1b[0m                           #= error a control byte
calls \x1f                              #= error a control byte
calls \x7f                              #= error a control byte
\x7fno such call\x00                    #= error a control byte
calls \x80                              #= error too many words
calls \xff                              #= error too many words
\xffcalls                               #= error no such call
calls\xff                               #= error no such call
calls\xc2\xa0                           #= error no such call | a blank that is none
\xc2\xa0calls                           #= error no such call
\xef\xbb\xbfcalls                       #= error no such call
statement \xd9\xa0                      #= error not a number | a digit that is none
statement \xff                          #= error not a number
admit 3 producer\x80                    #= error not a role
fresh 2022\xe2\x80\x9303\xe2\x80\x9301  #= error not a day
!"$%&'()*+,-./:;<=>?@[\\]^_`{|}~        #= error no such call
calls ~                                 #= error too many words
calls /                                 #= error too many words
statement /                             #= error not a number | the byte before 0
statement :                             #= error not a number | the byte after 9
settle 0 2022-01 1 2 3 4 :              #= error not a number
settle 0 2022-01 1 2 3 4 -/             #= error not a number

# ---- Numbers: any number of digits.
fresh 2022-03-01                        #= done
admit 00 0                              #= done
admit 0000000000000000000000000000000000000000000000000000000000000000000000000000000000000000000001 000000000000000000003  #= done
statement 000000000000000000001         #= statement 0 0 0 0 0 0
lodge 0 00 cash 00000000000000000000000001000000000000  #= done
lodge 0 01 letter 0001 00000000000000000000790 00000000000000000029219  #= done
statement 0                             #= statement 0 1000000000001 0 0 0 1
release 0 0 000000000000000000000999998000000  #= done
settle 0 0000000000000000000000000024 -00000000000000000000000000001 00 -0 -00 0000000000000000000001  #= covered 0
settle 0 24 999999999999999999999999999999 0 0 0 0  #= refused 11
settle 0 24 -999999999999999999999999999999 0 0 0 0 #= refused 11
settle 0 24 18446744073709551616 0 0 0 0  #= refused 11 | not 0
settle 0 24 -18446744073709551616 0 0 0 0 #= refused 11
settle 0 24 9223372036854775807 0 0 0 0 #= refused 11
settle 0 24 -9223372036854775808 0 0 0 0  #= refused 11
settle 0 24 -9223372036854775809 0 0 0 0  #= refused 11
admit 18446744073709551615 0            #= refused 1
admit 18446744073709551616 0            #= refused 1 | not 0
admit 2 18446744073709551616            #= refused 4 | not 0
admit 340282366920938463463374607431768211456 0  #= refused 1
lodge 0 18446744073709551616 cash 1     #= refused 5 | not 0
lodge 0 2 cash 18446744073709551617     #= refused 8 | not 1
release 0 0 18446744073709551617        #= refused 8
advance 18446744073709552406 1          #= refused 17 | not 790
advance 4294968086 1                    #= refused 17 | not 790
fresh 4294967296                        #= refused 17 | not 0
advance 791 18446744073709551616        #= opened 1 | not 0
advance 792 99999999999999999999999999  #= opened 1
advance 793 00000000000000000000000000  #= opened 0
advance 793 0000000000000000000000001   #= opened 1

# ---- Days and months as dates.
fresh 2020-01-01                        #= done
report
fresh 2020-02-29                        #= done
report
fresh 2099-12-31                        #= done
report
fresh 2021-10-01                        #= done
report
fresh 2024-02-29                        #= done
fresh 2096-02-29                        #= done
report
fresh 2100-02-28                        #= error not a day
fresh 2100-01-01                        #= error not a day
fresh 2019-12-31                        #= error not a day
fresh 0000-00-00                        #= error not a day
fresh 9999-12-31                        #= error not a day
fresh 2021-02-29                        #= error not a day
fresh 2021-02-30                        #= error not a day
fresh 2099-02-29                        #= error not a day
fresh 2021-04-31                        #= error not a day
fresh 2021-06-31                        #= error not a day
fresh 2021-09-31                        #= error not a day
fresh 2021-11-31                        #= error not a day
fresh 2021-01-32                        #= error not a day
fresh 2021-12-32                        #= error not a day
fresh 2021-01-00                        #= error not a day
fresh 2021-00-01                        #= error not a day
fresh 2021-13-01                        #= error not a day
fresh 2021-1-01                         #= error not a day
fresh 2021-01-1                         #= error not a day
fresh 2021-001-1                        #= error not a day
fresh 2021-1-001                        #= error not a day
fresh 2021-01-001                       #= error not a day
fresh 02021-01-01                       #= error not a day
fresh 021-01-01                         #= error not a day
fresh 21-01-01                          #= error not a day
fresh -2021-01-01                       #= error not a day
fresh +2021-01-1                        #= error not a day
fresh 2021/01/01                        #= error not a day
fresh 2021-01/01                        #= error not a day
fresh 2021_01-01                        #= error not a day
fresh 2021-0101                         #= error not a day
fresh 2021-01-                          #= error not a day
fresh 2021-01                           #= error not a day
fresh 2021--1-01                        #= error not a day
fresh 2021-01--1                        #= error not a day
fresh 2021-+1-01                        #= error not a day
fresh 2021-01-01T                       #= error not a day
fresh 2021-01-0a                        #= error not a day
fresh 2O21-01-01                        #= error not a day
fresh 2021 -01-01                       #= error too many words
fresh 2021- 01-01                       #= error not a day
fresh 20210101                          #= refused 17 | a number
report
advance 2096-03-01 0                    #= opened 0
advance 2096-02-28 0                    #= refused 17
advance 2099-12-31 0                    #= opened 0
fresh 2099-12-31                        #= done
admit 0 supplier                        #= done
lodge 0 0 letter 5 2020-01-01 2099-12-31  #= done
settle 0 2099-10 3000000 0 0 0 0        #= called 3000000 3000000 29229 | a last free day beyond the calendar; there no letter lasts
settle 0 957 3000000 0 0 0 0            #= covered 3000000
settle 0 2099-11 1 1 1 1 1              #= refused 12
settle 0 2099-13 1 1 1 1 1              #= error not a month
settle 0 2099-00 1 1 1 1 1              #= error not a month
settle 0 2100-01 1 1 1 1 1              #= error not a month
settle 0 2019-12 1 1 1 1 1              #= error not a month
settle 0 2099-1 1 1 1 1 1               #= error not a month
settle 0 2099-010 1 1 1 1 1             #= error not a month
settle 0 02099-10 1 1 1 1 1             #= error not a month
settle 0 2099-10- 1 1 1 1 1             #= error not a month
settle 0 2099-10-01 1 1 1 1 1           #= error not a month
settle 0 2099-1o 1 1 1 1 1              #= error not a month
settle 0 2099.10 1 1 1 1 1              #= error not a month
settle 0 -957 1 1 1 1 1                 #= error not a month
settle 0 +957 1 1 1 1 1                 #= error not a month
settle 0 957. 1 1 1 1 1                 #= error not a month
settle 0 2098-10 1 1 1 1 1              #= recorded 5
settle 0 2098-09 1 1 1 1 1              #= refused 12
settle 0 945 1 1 1 1 1                  #= recorded 5 | 2098-10
settle 0 944 1 1 1 1 1                  #= refused 12
advance 2099-12-31 5                    #= opened 0
calls                                   #= calls 2
report

# ---- `fresh` in the middle: a new book; an error or a refusal leaves the old one.
admit 1 0                               #= done
fresh 29220                             #= refused 17
fresh 2100-01-01                        #= error not a day
fresh 0 0                               #= error too many words
statement 1                             #= statement 0 0 0 0 0 1
fresh 29219                             #= done
statement 1                             #= refused 2
calls                                   #= calls 0
fresh 0                                 #= done
fresh 0                                 #= done
report

# ---- Reports: every role but the retired one, which only a kept journal has; all widths, order by number.
fresh 2021-03-01                        #= done
admit 63 demand-response                #= done
admit 5 demand-response                 #= done
admit 10 res-aggregator                 #= done
admit 3 producer                        #= done
admit 2 trader                          #= done
admit 1 self-supplied                   #= refused 23
admit 1 supplier                        #= done
admit 0 supplier                        #= done
report
settle 63 2021-01 <16 1000000000000> #= called 16000000000000 16000000000000 435
settle 5 2021-01 1 0 0 0 0              #= called 1 1 435
lodge 10 0 cash 1000000000000           #= done
lodge 10 1 cash 1000000000000           #= done
lodge 10 2 cash 1000000000000           #= done
lodge 10 3 letter 1000000000000 0 29219 #= done
lodge 10 4 letter 1000000000000 0 29219 #= done
lodge 10 5 letter 1000000000000 0 29219 #= done
lodge 10 6 letter 1000000000000 0 29219 #= done
lodge 10 7 letter 1000000000000 0 29219 #= done
lodge 3 0 cash 9                        #= done
lodge 2 7 cash 1000099                  #= done
report
advance 2021-03-12 11                   #= opened 11
report
advance 2022-03-12 1000                 #= opened 365
report
statement 63                            #= statement 16000000000000 0 16000000000000 366 5856000000000000 1
statement 10                            #= statement 0 8000000000000 0 0 0 0
statement 5                             #= statement 1 0 1 366 36600000000 1

# ---- The line that ends a journal's first stretch: here it has no answer and changes nothing.
role-retired                            #= no answer
role-retired
\t role-retired \r                      #= no answer
role-retired#= no answer
role-retired # and a comment
statement 5                             #= statement 1 0 1 366 36600000000 1
admit 7 self-supplied                   #= refused 23 | as before it
admit 7 supplier                        #= done
role-retired x                          #= error too many words
role-retired 1                          #= error too many words
role-retired role-retired               #= error too many words
role-retired \x00                       #= error a control byte
role-retired\x7f                        #= error a control byte
\xefrole-retired                        #= error no such call
role-retired\xff                        #= error no such call
role-retire                             #= error no such call
role-retiredd                           #= error no such call
role-retired-                           #= error no such call
role                                    #= error no such call
role-                                   #= error no such call
role retired                            #= error no such call
role_retired                            #= error no such call
roleretired                             #= error no such call
Role-retired                            #= error no such call
ROLE-RETIRED                            #= error no such call
retired                                 #= error no such call
1role-retired                           #= error no such call
admit 8 role-retired                    #= error not a role
statement role-retired                  #= error not a number
calls role-retired                      #= error too many words
fresh 2021-03-01                        #= done
role-retired                            #= no answer | no rule but the new one, before it and behind it
admit 7 1                               #= refused 23
calls                                   #= calls 0

# ---- Leaving participants: a deletion, its causes 24 and 13, and 25 of an annual run.
fresh 2022-07-31                        #= done | day 942, month 30
admit 0 supplier                        #= done
admit 1 producer                        #= done
admit 2 res-aggregator                  #= done
admit 3 demand-response                 #= done
admit 63 trader                         #= done
lodge 0 0 cash 2000000                  #= done
delete 0                                #= refused 24 | 31 July
delete 4                                #= refused 2 | before 24
delete 64                               #= refused 1
advance 2022-08-01 1                    #= opened 1 | day 943, month 31: months 17 to 29 count
delete 3                                #= deletion 0 0 | no month is recorded
delete 3                                #= refused 24 | in the status already
settle 1 2021-06 900 0 0 0 0            #= recorded 900 | fourteen months back
settle 1 2022-03 500 0 0 0 0            #= recorded 500
settle 1 2022-05 300 0 0 0 0            #= recorded 300
settle 1 2022-04 -5 0 0 0 0             #= recorded -5
delete 1                                #= deletion 500 1 | March to May; June 2021 is a fourth
calls                                   #= calls 3 | two minimums and this
lodge 1 0 cash 100                      #= done
release 1 0 1                           #= refused 16 | the call is open
settle 1 2022-06 500 0 0 0 0            #= covered 500 | not above it
settle 1 2022-06 501 0 0 0 0            #= called 501 401 953 | months are checked as before
settle 63 2022-04 1000000 0 0 0 0       #= recorded 1000000
delete 63                               #= deletion 1000000 0 | not above its open minimum
statement 63                            #= statement 0 0 0 0 0 1 | the deletion called nothing
advance 2022-08-31 100                  #= opened 30 | day 973
statement 1                             #= statement 501 100 401 20 2000000000 2 | 500 and 501 from day 954 on
annual 1                                #= refused 14 | before 25
settle 2 2022-06 100 0 0 0 0            #= called 100 100 983
settle 2 2022-06 200 0 0 0 0            #= called 200 200 983
settle 2 2022-06 300 0 0 0 0            #= called 300 300 983
settle 2 2022-06 400 0 0 0 0            #= called 400 400 983
settle 2 2022-05 401 0 0 0 0            #= recorded 401
delete 2                                #= refused 13 | the call would be a fifth open one
delete 2                                #= refused 13 | and it is not in the status
statement 2                             #= statement 0 0 0 0 0 4
calls                                   #= calls 8
advance 2022-09-01 1                    #= opened 1 | day 974, month 32
annual 2                                #= annual 401 2 | May and June
annual 0                                #= annual 2000000 0
annual 1                                #= refused 25
annual 3                                #= refused 25
annual 4                                #= refused 2
annual 64                               #= refused 1
delete 2                                #= refused 13
settle 2 2022-05 400 0 0 0 0            #= recorded 400
delete 2                                #= deletion 400 0 | four calls are open, and it is not above the last of them
delete 2                                #= refused 24
annual 2                                #= refused 25 | its next amount stays
settle 0 2022-07 3000000 0 0 0 0        #= recorded 3000000 | September
advance 2022-09-21 100                  #= opened 20 | day 994
statement 2                             #= statement 400 0 400 11 1100000000 4 | from day 984 on
delete 0                                #= deletion 3000000 1 | July alone is recorded; above its firm minimum
annual 0                                #= refused 14 | before 25
calls                                   #= calls 9
advance 2022-09-30 100                  #= opened 9
statement 0                             #= statement 2000000 2000000 0 0 0 2 | its minimum's call and the deletion's
advance 2022-10-01 100                  #= opened 1 | day 1004, the call's last free day
statement 0                             #= statement 2000000 2000000 0 0 0 2 | the next amount
statement 2                             #= statement 401 0 401 21 2100000000 4 | its next amount
statement 1                             #= statement 501 100 401 51 5100000000 2 | it has none
settle 0 2022-08 2999999 0 0 0 0        #= covered 2999999 | not above the open call
settle 0 2022-08 3000001 0 0 0 0        #= called 3000001 1000001 1014
release 0 0 1                           #= refused 16
delete 0                                #= refused 24
admit 4 producer                        #= done
delete 4                                #= refused 24 | October
advance 2022-10-02 1                    #= opened 1
statement 0                             #= statement 3000000 2000000 1000000 1 100000000 3 | the call outlived 1 October
lodge 0 1 cash 1000000                  #= done
advance 2022-10-12 100                  #= opened 10
statement 0                             #= statement 3000001 3000000 1 2 200000000 3
calls                                   #= calls 10
report
# A next amount of 100 or of 900, and deletions on 20, 21 and 30 September.
fresh 2022-09-01                        #= done
admit 0 producer                        #= done
admit 1 producer                        #= done
admit 2 producer                        #= done
settle 0 2022-06 100 0 0 0 0            #= recorded 100
settle 1 2022-06 100 0 0 0 0            #= recorded 100
settle 2 2022-03 900 0 0 0 0            #= recorded 900
settle 2 2022-04 50 0 0 0 0             #= recorded 50
settle 2 2022-05 40 0 0 0 0             #= recorded 40
settle 2 2022-06 30 0 0 0 0             #= recorded 30
annual 0                                #= annual 100 1
annual 1                                #= annual 100 1
annual 2                                #= annual 900 4
settle 0 2022-07 300 0 0 0 0            #= recorded 300
settle 1 2022-07 300 0 0 0 0            #= recorded 300
advance 2022-09-20 100                  #= opened 19 | day 993
delete 0                                #= deletion 300 1
advance 2022-09-21 100                  #= opened 1
delete 1                                #= deletion 300 1
advance 2022-09-30 100                  #= opened 9
delete 2                                #= deletion 50 1 | whatever the next amount is
advance 2022-10-01 100                  #= opened 1
statement 0                             #= statement 100 0 100 1 100000000 1
statement 1                             #= statement 100 0 100 1 100000000 1
statement 2                             #= statement 900 0 900 1 100000000 1
settle 2 2022-08 899 0 0 0 0            #= covered 899 | above the open call, not above the firm amount
advance 2022-10-02 100                  #= opened 1
statement 0                             #= statement 100 0 100 2 200000000 1 | its call ended on 30 September
statement 1                             #= statement 300 0 300 2 200000000 1 | its call ended on 1 October
advance 2022-10-11 100                  #= opened 9
statement 2                             #= statement 900 0 900 11 1100000000 1 | its call has ended and raised nothing
calls                                   #= calls 3
# The line of a deletion.
\tdelete\t\r0 \r                       #= refused 24
delete 0#= refused 24
delete 000000000000000000000000000000   #= refused 24
delete#= error too few words
delete #= error too few words
delete \x00                             #= error a control byte
delete 0\x7f                            #= error a control byte
delete \xd9\xa0                         #= error not a number
delete\xff 0                            #= error no such call
Delete 0                                #= error no such call
DELETE 0                                #= error no such call
delet 0                                 #= error no such call
deletee 0                               #= error no such call
deletes 0                               #= error no such call
deletion 0                              #= error no such call
delete0                                 #= error no such call
del 0                                   #= error no such call
de lete 0                               #= error no such call
admit 5 delete                          #= error not a role
statement delete                        #= error not a number
role-retired delete                     #= error too many words
calls                                   #= calls 3 | the book is as before

# ---- A month in one file, in hexadecimal digits: month, count, pairs of offset and length, parts; the least byte first.
fresh 2022-03-01                        #= done | month 26: month 24 = 18 is checked
admit 0 supplier                        #= done
admit 1 trader                          #= done
admit 2 producer                        #= done
admit 63 demand-response                #= done
lodge 0 0 cash 2000000                  #= done
calls                                   #= calls 2
batch {1800 0100  0c000000 2a000000  0005 ff9e240000000000 <4>}  #= batch 1 | 2,399,999: covered
calls                                   #= calls 2
batch {1800 0200  14000000 2a000000 3e000000 2a000000  0005 009f240000000000 <4> 0205 0500000000000000 <4>}  #= batch 2
calls                                   #= calls 4 | 2,400,000 is 20% above the cover, and the producer has none
batch {1800 0100  0C000000 2A000000  0005 FF9E240000000000 <4>}  #= batch 1 | capital digits; the total is replaced
batch {1800 0100  0c000000 2A000000  3F05 F1fFfFFFffffFFff <4>}  #= batch 1 | both; -15 is covered
batch {1700 0300  1c000000 2a000000 46000000 2a000000 70000000 2a000000  3f05 0100000000000000 <4> 0105 <5> 0005 <5>}  #= batch 3 | recorded
batch {0c00 0100  0c000000 82000000  0110 00f05a2b17ffffff 0010a5d4e8000000 <14 0100000000000000>}  #= batch 1 | 16 rows, the bounds
calls                                   #= calls 4
settle 0 2022-01 2400000 0 0 0 0        #= covered 2400000 | not above the open call that the batch made
# Refusal 20: too short for its pairs, or a count outside 1 to 64.
batch                                   #= refused 20 0 | an empty file
batch 18                                #= refused 20 0
batch 180001                            #= refused 20 0
batch 18000000                          #= refused 20 0 | a count of 0
batch 18000100                          #= refused 20 0
batch {1800 0100  0c000000 2a0000}      #= refused 20 0 | one byte short of its pair
batch {1800 0001  0c000000 2a000000  0005 <5>}  #= refused 20 0 | a count of 256
batch {1800 4000  <63> 00000000000000}  #= refused 20 0 | one byte short of 64 pairs
batch {1800 4100  <65>}  #= refused 20 0 | a count of 65
batch {1800 ffff  <65>}  #= refused 20 0
# Refusal 21: the parts don't follow on.
batch {1800 4000  <64>}  #= refused 21 0
batch {1800 0100  0b000000 2a000000  0005 <5>}  #= refused 21 0
batch {1800 0100  0d000000 2a000000  0005 <5>}  #= refused 21 0
batch {1800 0100  0d000000 2a000000  00 0005 <5>}  #= refused 21 0 | a byte before the first part
batch {1800 0100  0000000c 2a000000  0005 <5>}  #= refused 21 0 | the greatest byte first
batch {1800 0200  14000000 2a000000 3d000000 2a000000  0005 <5> 0205 <5>}  #= refused 21 1
batch {1800 0200  14000000 2a000000 3f000000 2a000000  0005 <5> 0205 <5>}  #= refused 21 1
batch {1800 0200  15000000 2a000000 3f000000 2a000000  0005 <5> 0205 <5>}  #= refused 21 0
batch {1800 0300  1c000000 2a000000 45000000 2a000000 70000000 2a000000  0005 <5> 0105 <5> 0205 <5>}  #= refused 21 1
batch {1800 0100  0c000000 2a000000  0005 <5> 00}  #= refused 21 0 | a byte behind the end
batch {1800 0200  14000000 2a000000 3e000000 2a000000  0005 <5> 0205 <5> 00}  #= refused 21 1
batch {1800 0200  14000000 2a000000 3e000000 2a000000  0005 <5> 0205 <4> 00000000000000}  #= refused 21 1 | a byte is missing
batch {1800 0200  14000000 2a000000 3e000000 29000000  0005 <5> 0205 <5>}  #= refused 21 1 | the last length
batch {1800 0300  1c000000 2a010000 46010000 2a000000 70010000 2a000000  0005 <5> 0105 <5> 0205 <5>}  #= refused 21 2 | the first ends past the file
batch {1800 0200  14000000 2a000080 3e000080 2a000080  0005 <5> 0205 <5>}  #= refused 21 1 | the end is right modulo 2^32
batch {1800 0200  14000000 ecffffff 00000000 3e000000  0005 <5> 0205 <5>}  #= refused 21 1 | the offset is right modulo 2^32
# Refusal 22: a wrong length, or a participant twice.
batch {1800 0100  0c000000 00000000}    #= refused 22 0
batch {1800 0100  0c000000 01000000  00}  #= refused 22 0
batch {1800 0100  0c000000 29000000  0005 <4> 00000000000000}  #= refused 22 0
batch {1800 0100  0c000000 2b000000  0005 <5> 00}  #= refused 22 0
batch {1800 0100  0c000000 2a000000  0004 <5>}  #= refused 22 0
batch {1800 0100  0c000000 2a000000  0006 <5>}  #= refused 22 0
batch {1800 0200  14000000 2a000000 3e000000 2a000000  0205 <5> 0205 <5>}  #= refused 22 1 | a participant twice
batch {1800 0300  1c000000 2a000000 46000000 2a000000 70000000 2a000000  0205 <5> 0105 <5> 0205 <5>}  #= refused 22 2
batch {1800 0300  1c000000 2a000000 46000000 2a000000 71000000 2a000000  0004 <5> 0105 <5> 0205 <5>}  #= refused 21 2 | before 22 of an earlier pair
batch {ffff 0200  14000000 2a000000 3e000000 2a000000  ff05 <5> ff05 <5>}  #= refused 22 1 | before 1 and 12
# The settlements' own refusals, with the pair's index: the book is as before.
batch {1800 0200  14000000 2a000000 3e000000 2a000000  0105 00f2052a01000000 <4> 4005 <5>}  #= refused 1 1 | the first part would call
batch {1800 0200  14000000 2a000000 3e000000 2a000000  0105 00f2052a01000000 <4> 0305 <5>}  #= refused 2 1
batch {1900 0200  14000000 2a000000 3e000000 2a000000  0105 00f2052a01000000 <4> 0205 <5>}  #= refused 12 0 | one month back
batch {0b00 0100  0c000000 2a000000  0105 <5>}  #= refused 12 0 | fifteen
batch {1801 0100  0c000000 2a000000  0105 <5>}  #= refused 12 0 | not month 24
batch {ffff 0100  0c000000 02000000  0100}  #= refused 12 0 | before 10
batch {1800 0100  0c000000 02000000  0100}  #= refused 10 0 | no rows
batch {1800 0200  14000000 2a000000 3e000000 22000000  0105 00f2052a01000000 <4> 0204 <4>}  #= refused 10 1 | 4 rows
batch {1800 0200  14000000 2a000000 3e000000 8a000000  0105 00f2052a01000000 <4> 0211 <17>}  #= refused 10 1 | 17 rows
batch {1800 0100  0c000000 fa070000  00ff <255>}  #= refused 10 0 | 255 rows
batch {1800 0200  14000000 2a000000 3e000000 2a000000  0105 00f2052a01000000 <4> 0205 0110a5d4e8000000 <4>}  #= refused 11 1 | 10^12 + 1
batch {1800 0200  14000000 2a000000 3e000000 2a000000  0105 00f2052a01000000 <4> 0205 ffef5a2b17ffffff <4>}  #= refused 11 1 | -10^12 - 1
batch {1800 0100  0c000000 2a000000  0205 <4> 0000000000000080}  #= refused 11 0 | -2^63
batch {1800 0200  14000000 2a000000 3e000000 2a000000  4005 <5> 0305 <5>}  #= refused 1 0 | the first of two
calls                                   #= calls 4
settle 2 2022-01 6 0 0 0 0              #= called 6 6 800
settle 2 2022-01 7 0 0 0 0              #= called 7 7 800
settle 2 2022-01 8 0 0 0 0              #= called 8 8 800 | its fourth open call
batch {1800 0200  14000000 2a000000 3e000000 2a000000  0105 00f2052a01000000 <4> 0205 0900000000000000 <4>}  #= refused 13 1
batch {1800 0200  14000000 2a000000 3e000000 2a000000  0105 00f2052a01000000 <4> 0205 0800000000000000 <4>}  #= batch 2 | the first is called
calls                                   #= calls 8
advance 2022-03-12 100                  #= opened 11
statement 0                             #= statement 2400000 2000000 400000 1 100000000 2
statement 1                             #= statement 5000000000 0 5000000000 1 5000000000 2
statement 2                             #= statement 8 0 8 1 100000000 4 | the first call by a file
statement 63                            #= statement 0 0 0 0 0 0
# The line of a batch: one word of hexadecimal digits, or none.
batch 0                                 #= error not two hexadecimal digits for each byte
batch 180                               #= error not two hexadecimal digits for each byte
batch 18g0                              #= error not two hexadecimal digits for each byte
batch 18G0                              #= error not two hexadecimal digits for each byte
batch 0x18                              #= error not two hexadecimal digits for each byte
batch -18                               #= error not two hexadecimal digits for each byte
batch -1                                #= error not two hexadecimal digits for each byte
batch 1/                                #= error not two hexadecimal digits for each byte | the byte before 0
batch 1:                                #= error not two hexadecimal digits for each byte | the byte after 9
batch 1@                                #= error not two hexadecimal digits for each byte | the byte before A
batch `1                                #= error not two hexadecimal digits for each byte | the byte before a
batch \xff\xff                          #= error not two hexadecimal digits for each byte
batch 2022-01                           #= error not two hexadecimal digits for each byte
batch 1800 0100                         #= error too many words
batch 18 x                              #= error too many words
batch 1 2                               #= error not two hexadecimal digits for each byte | the first fault from the left
batch \x00                              #= error a control byte
batch 18\x7f                            #= error a control byte
Batch 18                                #= error no such call
BATCH                                   #= error no such call
batc 18                                 #= error no such call
batches                                 #= error no such call
batch18                                 #= error no such call
\tbatch\t\r18 \r                        #= refused 20 0
batch 0aAfF9Cb                          #= refused 20 0 | a count of 52,217
calls                                   #= calls 8 | the book is as before
batch#18
batch 18#00

# ---- Calls counted by participant: each statement has its own count, and `calls` their sum.
fresh 2021-04-01                        #= done | day 456: February is checked
calls                                   #= calls 0
admit 0 supplier                        #= done
admit 1 producer                        #= done
admit 2 producer                        #= done
admit 0 trader                          #= refused 3 | no second minimum is called
statement 0                             #= statement 0 0 0 0 0 1 | the minimum
statement 1                             #= statement 0 0 0 0 0 0
calls                                   #= calls 1
settle 1 2021-02 100 0 0 0 0            #= called 100 100 466
settle 1 2021-02 200 0 0 0 0            #= called 200 200 466
settle 1 2021-02 7 0 0 0 0              #= covered 7 | the total is replaced, the calls stay
settle 2 2021-02 200 0 0 0 0            #= called 200 200 466
settle 2 2021-01 900 0 0 0 0            #= recorded 900
calls                                   #= calls 4
advance 2021-04-12 100                  #= opened 11 | no call is open
statement 0                             #= statement 2000000 0 2000000 1 100000000 1
statement 1                             #= statement 200 0 200 1 100000000 2
statement 2                             #= statement 200 0 200 1 100000000 1 | the same but for the count
settle 2 2021-02 201 0 0 0 0            #= called 201 201 477
settle 2 2021-02 202 0 0 0 0            #= called 202 202 477
settle 2 2021-02 203 0 0 0 0            #= called 203 203 477
settle 2 2021-02 204 0 0 0 0            #= called 204 204 477
settle 2 2021-02 205 0 0 0 0            #= refused 13
batch {0d00 0200  14000000 2a000000 3e000000 2a000000  0105 c900000000000000 <4> 0205 cd00000000000000 <4>}  #= refused 13 1 | 201 and 205
statement 1                             #= statement 200 0 200 1 100000000 2
statement 2                             #= statement 200 0 200 1 100000000 5 | a fifth open call is not made, the fifth of its life was
calls                                   #= calls 8

# ---- Cut, doubled and joined lines.
fresh 2021-03-01                        #= done
admit 3 producer                        #= done
lodge 3 0 cash 9                        #= done
admit 6 0admit 7 0                      #= error not a role
admit 6 0 admit 7 0                     #= error too many words
admit admit 6 0                         #= error not a number
admitt 6 0                              #= error no such call
dmit 6 0                                #= error no such call
admit6 0                                #= error no such call
admit 60                                #= error too few words
ad mit 6 0                              #= error no such call
admit 6 6 0                             #= error too many words
lodge 3 1 cash cash 5                   #= error not a number
lodge 3 1 letter 5 0 0 letter           #= error too many words
lodge 3 3 1 cash 5                      #= error neither cash nor letter
lodge lodge 3 1 cash 5                  #= error not a number
lodge 3 1 cash 5 lodge 3 1 cash 5       #= error too many words
relea                                   #= error no such call
rele ase 3 0 1                          #= error no such call
release 3 0 1000000000000000000000000000000000000000000000000000000000000x  #= error not a number
"statement 3"                           #= error no such call
statement "3"                           #= error not a number
statement 3;                            #= error not a number
statement, 3                            #= error no such call
statement 3 statement 3                 #= error too many words
report report                           #= error too many words
reports                                 #= error no such call
calls calls                             #= error too many words
statement 3                             #= statement 0 9 0 0 0 0
'''

BEHIND = br'''
# ---- Amounts in euros: digits, a dot and exactly two digits. So an amount of `lodge` and `release` may be, and a figure of `settle`.
fresh 2022-03-01                        #= done | day 790, month 26
admit 0 supplier                        #= done
admit 1 producer                        #= done
lodge 0 0 cash 20000.00                 #= done
lodge 0 1 cash 0.01                     #= done
statement 0                             #= statement 0 2000001 0 0 0 1
lodge 0 2 cash 0.00                     #= refused 8
lodge 0 2 cash 10000000000.01           #= refused 8 | 10^12 cents and one
lodge 0 2 cash 10000000000.00           #= done
lodge 0 3 letter 5000.00 2022-03-01 2022-03-31  #= done
lodge 0 4 letter 000000000000000000000000000000000000000000000000000000000007.50 790 29219  #= done
statement 0                             #= statement 0 1000002500751 0 0 0 1
lodge 0 5 cash 184467440737095516.15    #= refused 8 | 2^64 - 1 cents
lodge 0 5 cash 184467440737095516.16    #= refused 8 | not 0
lodge 0 5 cash 184467440737095516.17    #= refused 8 | not 1
lodge 0 5 cash 340282366920938463463374607431768211456.01  #= refused 8
lodge 0 5 letter 184467440737095516.17 790 790  #= refused 8
release 0 1 0.02                        #= refused 15
release 0 1 0.01                        #= done
release 0 0 20000.01                    #= refused 15
release 0 2 184467440737095516.17       #= refused 8
release 0 3 5000.00                     #= done
release 0 4 7.49                        #= refused 15 | a letter in part
release 0 4 7.50                        #= done
release 0 2 9999999999.99               #= done
release 0 2 00000000.01                 #= done
release 0 0 0.01                        #= refused 16 | the minimum is called
settle 1 2022-01 100.00 -50.00 -0.00 0.01 1  #= called 5002 5002 800 | 10000 - 5000 + 1 + 1
settle 1 2022-01 -100.00 0.00 -0.99 0 0.01  #= covered -10098
settle 1 2021-12 10000000000.00 -10000000000.00 0 0 0.00  #= recorded 0
settle 1 2021-12 10000000000.01 0 0 0 0 #= refused 11
settle 1 2021-12 0 0 0 0 -10000000000.01  #= refused 11
settle 1 2021-12 0 0 0 0 92233720368547758.07  #= refused 11
settle 1 2021-12 0 0 0 0 92233720368547758.08  #= refused 11
settle 1 2021-12 0 0 0 0 -92233720368547758.08  #= refused 11
settle 1 2021-12 0 0 0 0 -92233720368547758.09  #= refused 11
settle 1 2021-12 0 0 0 0 184467440737095516.16  #= refused 11 | not 0
settle 1 2021-12 0 0 0 0 -184467440737095516.16  #= refused 11
settle 1 2021-12 1.00 2.00 3.00 4.00    #= refused 10
settle 1 2021-12 -0000000000000000000000000000001.00 0 0 0 0  #= recorded -100
# Forms that are no amount.
lodge 0 5 cash 5.                       #= error not a number
lodge 0 5 cash 5.0                      #= error not a number
lodge 0 5 cash 5.000                    #= error not a number
lodge 0 5 cash .50                      #= error not a number
lodge 0 5 cash .                        #= error not a number
lodge 0 5 cash ..                       #= error not a number
lodge 0 5 cash .00                      #= error not a number
lodge 0 5 cash 5..00                    #= error not a number
lodge 0 5 cash 5.00.                    #= error not a number
lodge 0 5 cash 5.00.00                  #= error not a number
lodge 0 5 cash 5.0.0                    #= error not a number
lodge 0 5 cash 1.000.00                 #= error not a number
lodge 0 5 cash 5,00                     #= error not a number
lodge 0 5 cash 1,000                    #= error not a number
lodge 0 5 cash 1,000.00                 #= error not a number
lodge 0 5 cash 1.000,00                 #= error not a number
lodge 0 5 cash 1'000.00                 #= error not a number
lodge 0 5 cash 1 000.00                 #= error too many words
lodge 0 5 cash 5 .00                    #= error too many words
lodge 0 5 cash 5. 00                    #= error not a number
lodge 0 5 cash -5.00                    #= error not a number
lodge 0 5 cash +5.00                    #= error not a number
lodge 0 5 cash -0.00                    #= error not a number
lodge 0 5 cash 5.-1                     #= error not a number
lodge 0 5 cash 5.+1                     #= error not a number
lodge 0 5 cash 5.0x                     #= error not a number
lodge 0 5 cash 5.x0                     #= error not a number
lodge 0 5 cash x.00                     #= error not a number
lodge 0 5 cash 0x5.00                   #= error not a number
lodge 0 5 cash 5.0/                     #= error not a number | the byte before 0
lodge 0 5 cash 5.:0                     #= error not a number | the byte after 9
lodge 0 5 cash /.00                     #= error not a number
lodge 0 5 cash 5/00                     #= error not a number
lodge 0 5 cash 5-00                     #= error not a number
lodge 0 5 cash 5.00e0                   #= error not a number
lodge 0 5 cash EUR5.00                  #= error not a number
lodge 0 5 cash 5.00EUR                  #= error not a number
lodge 0 5 cash \xe2\x82\xac5.00          #= error not a number
lodge 0 5 cash 5.\xd9\xa0\xd9\xa0        #= error not a number
lodge 0 5 cash 5.\x00                   #= error a control byte
lodge 0 5 letter 5.0 790 790            #= error not a number
lodge 0 5 letter 5.00 790.00 790        #= error not a day
release 0 0 5.                          #= error not a number
release 0 0 .05                         #= error not a number
release 0 0 5,00                        #= error not a number
release 0 0 -5.00                       #= error not a number
release 0 0 5.00 0                      #= error too many words
settle 1 2022-01 1 2 3 4 5.             #= error not a number
settle 1 2022-01 1 2 3 4 -5.            #= error not a number
settle 1 2022-01 1 2 3 4 -.05           #= error not a number
settle 1 2022-01 1 2 3 4 .05            #= error not a number
settle 1 2022-01 1 2 3 4 --5.00         #= error not a number
settle 1 2022-01 1 2 3 4 +5.00          #= error not a number
settle 1 2022-01 1 2 3 4 5.00-          #= error not a number
settle 1 2022-01 1 2 3 4 5.-00          #= error not a number
settle 1 2022-01 1 2 3 4 -5.0           #= error not a number
settle 1 2022-01 1 2 3 4 -5.000         #= error not a number
settle 1 2022-01 1 2 3 4 -5,00          #= error not a number
settle 1 2022-01 1 2 3 4 -              #= error not a number
settle 1 2022-01 1 2 3 4 -.             #= error not a number
settle 1 2022-01 1 2 3 4 5.00 -5.0      #= error not a number
# Other numbers have no dot.
lodge 0.00 5 cash 5                     #= error not a number
lodge 0 5.00 cash 5                     #= error not a number
release 0.00 0 5                        #= error not a number
release 0 0.00 5                        #= error not a number
settle 1.00 2022-01 1 2 3 4 5           #= error not a number
settle 1 24.00 1 2 3 4 5                #= error not a month
admit 2.00 0                            #= error not a number
admit 2 0.00                            #= error not a role
fresh 790.00                            #= error not a day
advance 790.00                          #= error not a day
advance 790 0.00                        #= error not a number
annual 1.00                             #= error not a number
delete 1.00                             #= error not a number
statement 1.00                          #= error not a number
file 1.00                               #= error not a number
releasable 1.00 0                       #= error not a number
releasable 1 0.00                       #= error not a number
special 3 1.00 0 0 3 0 0 0 3 0 0 0 0 0 0 0  #= error not a number
special 3 0 0 0 3 0 0 0 3 0 0 0 1 -1.00 1 0 1 0 1 0  #= error not a number
special 3.00 0 0 0 3 0 0 0 3 0 0 0 0 0 0 0  #= error not a number
batch 18.00                             #= error not two hexadecimal digits for each byte
statement 0                             #= statement 0 2000000 0 0 0 1 | the book is as before
statement 1                             #= statement 0 0 0 0 0 1

# ---- `advance` without a budget opens all days up to its day.
advance 2022-03-03                      #= opened 2
advance 792                             #= opened 0
advance 791                             #= refused 17
advance 2022-03-01                      #= refused 17
advance 29220                           #= refused 17
advance 4294967296                      #= refused 17
advance 18446744073709551616            #= refused 17 | not 0
advance 2100-01-01                      #= error not a day
advance 2022-02-29                      #= error not a day
advance -1                              #= error not a day
advance 793 0                           #= opened 0 | a budget of 0 is one
advance 793 x                           #= error not a number
advance 793 1 1                         #= error too many words
advance\t793\t\r#= opened 1
advance 0000000000000000000000000000794 #= opened 1
advance                                 #= error too few words
statement 1                             #= statement 0 0 0 0 0 1
fresh 0                                 #= done
admit 0 trader                          #= done
advance 2099-12-31                      #= opened 29219 | the whole calendar
statement 0                             #= statement 1000000 0 1000000 29209 2920900000000 1 | from day 11 on
advance 2099-12-31                      #= opened 0
file 0
releasable 0 0                          #= releasable 0

# ---- `today`
today                                   #= today 29219 2099-12-31
today 0                                 #= error too many words
today today                             #= error too many words
today 2021-10-01                        #= error too many words
today #
\ttoday \r                              #= today 29219 2099-12-31
today#= today 29219 2099-12-31
Today                                   #= error no such call
TODAY                                   #= error no such call
toda                                    #= error no such call
todays                                  #= error no such call
to day                                  #= error no such call
today\x00                               #= error a control byte
today\xff                               #= error no such call
statement today                         #= error not a number
fresh today                             #= error not a day
fresh 0                                 #= done
today                                   #= today 0 2020-01-01
fresh 2024-02-29                        #= done
today                                   #= today 1520 2024-02-29
advance 2024-03-01                      #= opened 1
today                                   #= today 1521 2024-03-01
fresh 29220                             #= refused 17
today                                   #= today 1521 2024-03-01

# ---- `releasable`: the most that a release at a position would be accepted for.
fresh 2022-03-01                        #= done | day 790, month 26
admit 0 producer                        #= done | no minimum
admit 1 supplier                        #= done
releasable 64 0                         #= refused 1
releasable 64 8                         #= refused 1 | before 5
releasable 18446744073709551616 0       #= refused 1 | not 0
releasable 2 0                          #= refused 2
releasable 2 8                          #= refused 2 | before 5
releasable 63 99999999999999999999      #= refused 2
releasable 0 8                          #= refused 5
releasable 0 256                        #= refused 5
releasable 0 18446744073709551616       #= refused 5 | not 0
releasable 0 0                          #= releasable 0 | empty
releasable 00 007                       #= releasable 0
lodge 0 0 cash 700                      #= done
lodge 0 1 letter 500 790 793            #= done | it lapses on 5 March
lodge 0 2 letter 90 791 900             #= done | it begins tomorrow
lodge 0 7 cash 1000000000000            #= done
releasable 0 0                          #= releasable 700 | nothing is called
releasable 0 1                          #= releasable 500
releasable 0 2                          #= releasable 90
releasable 0 7                          #= releasable 1000000000000
release 0 7 1000000000000               #= done
releasable 0 7                          #= releasable 0 | empty again
settle 0 2022-01 1000 0 0 0 0           #= called 1000 300 800 | neither letter is deposited
releasable 0 0                          #= releasable 200 | the cover is 1,200
releasable 0 1                          #= releasable 0 | 700 would be left, and a letter is released whole
releasable 0 2                          #= releasable 90 | it covers nothing yet
release 0 0 201                         #= refused 16
release 0 1 500                         #= refused 16
release 0 0 200                         #= done
releasable 0 0                          #= releasable 0 | 1,000 is left, as much as is called
release 0 0 1                           #= refused 16
releasable 0 2                          #= releasable 90
advance 791                             #= opened 1
releasable 0 0                          #= releasable 90 | the second letter has begun
releasable 0 2                          #= releasable 90
lodge 0 3 cash 1                        #= done
releasable 0 0                          #= releasable 91
releasable 0 3                          #= releasable 1 | what is held
release 0 2 90                          #= done
releasable 0 0                          #= releasable 1
releasable 0 1                          #= releasable 0
lodge 0 4 cash 499                      #= done
releasable 0 1                          #= releasable 500 | the letter, to the cent
releasable 0 4                          #= releasable 499
release 0 4 1                           #= done
releasable 0 1                          #= releasable 0 | one cent is missing
releasable 0 4                          #= releasable 498
lodge 0 5 cash 1                        #= done
release 0 1 500                         #= done
releasable 0 1                          #= releasable 0
releasable 0 4                          #= releasable 0
advance 801                             #= opened 10 | the call is firm: 500 + 1 + 498 + 1
statement 0                             #= statement 1000 1000 0 0 0 1
releasable 0 0                          #= releasable 0 | the firm amount
lodge 0 6 letter 60 801 801             #= done
releasable 0 0                          #= releasable 60
releasable 0 6                          #= releasable 60 | on its last day
advance 802                             #= opened 1
releasable 0 6                          #= releasable 0 | it has lapsed
releasable 0 0                          #= releasable 0
release 0 6 60                          #= refused 7
releasable 1 0                          #= releasable 0
lodge 1 0 cash 19999.99                 #= done
releasable 1 0                          #= releasable 0 | too little is there already
statement 1                             #= statement 2000000 1999999 1 2 200000000 1
lodge 1 1 letter 5000.00 850 900        #= done
releasable 1 1                          #= releasable 0 | also of a letter that has not begun
release 1 1 5000.00                     #= refused 16
lodge 1 2 cash 0.01                     #= done
releasable 1 1                          #= releasable 500000
releasable 1 2                          #= releasable 0
# The next amount binds from the annual run on; and two open calls bind by the larger.
advance 2022-09-01                      #= opened 172
settle 0 2022-06 1500 0 0 0 0           #= recorded 1500
settle 0 2022-05 800 0 0 0 0            #= recorded 800
lodge 0 1 cash 600                      #= done
releasable 0 1                          #= releasable 600
annual 0                                #= annual 1500 3 | January's 1,000 and these
releasable 0 1                          #= releasable 100 | 1,600 less the next amount
release 0 1 101                         #= refused 16
release 0 1 100                         #= done
advance 2022-10-01                      #= opened 30
statement 0                             #= statement 1500 1500 0 0 0 1
settle 0 2022-08 1800 0 0 0 0           #= called 1800 300 1014
settle 0 2022-08 1900 0 0 0 0           #= called 1900 400 1014
lodge 0 2 cash 450                      #= done
releasable 0 2                          #= releasable 50 | 1,950 less the larger call
releasable 0 1                          #= releasable 50
# The line.
releasable                              #= error too few words
releasable 0                            #= error too few words
releasable 0 0 0                        #= error too many words
releasable x 0                          #= error not a number
releasable 0 x                          #= error not a number
releasable -1 0                         #= error not a number
releasable 0 -0                         #= error not a number
releasable 0, 0                         #= error not a number
releasable x                            #= error not a number
releasable 0 0 x                        #= error too many words
\treleasable\t0\r1 #= releasable 50
releasable 0 1#= releasable 50
releasable 0 #1
Releasable 0 0                          #= error no such call
releasabl 0 0                           #= error no such call
releasables 0 0                         #= error no such call
release able 0                          #= error not a number
releasable0 0                           #= error no such call
releasable 0 0\x00                      #= error a control byte
statement 0                             #= statement 1500 1950 0 0 0 3 | the book is as before

# ---- `file`: what is held of a participant, and what is due of it.
file                                    #= error too few words
file x                                  #= error not a number
file -1                                 #= error not a number
file 0 0                                #= error too many words
file 0 x                                #= error too many words
file 64                                 #= refused 1
file 256                                #= refused 1
file 18446744073709551616               #= refused 1 | not 0
file 2                                  #= refused 2
file 63                                 #= refused 2
File 0                                  #= error no such call
fil 0                                   #= error no such call
files 0                                 #= error no such call
file0                                   #= error no such call
file 0\x7f                              #= error a control byte
\tfile\t\r0 \r
file 0#
file 000000000000000000000001
fresh 2022-03-01                        #= done | month 26: months 12 to 24
file 0                                  #= refused 2
admit 0 producer                        #= done
admit 1 supplier                        #= done
admit 2 trader                          #= done
admit 3 res-aggregator                  #= done
admit 63 demand-response                #= done
admit 4 self-supplied                   #= refused 23
file 0
file 1
file 2
file 3
file 63
file 4                                  #= refused 2
# Positions, letters that begin later, letters on their last day.
lodge 0 7 cash 1                        #= done
lodge 0 0 letter 10000000000.00 0 29219 #= done
lodge 0 3 letter 99 790 790             #= done
lodge 0 4 letter 100 791 791            #= done
lodge 0 5 cash 123456.78                #= done
lodge 0 6 cash 10000000000.00           #= done
file 0
release 0 5 123456.77                   #= done
release 0 6 10000000000.00              #= done
release 0 3 99                          #= done
file 0
advance 791                             #= opened 1
file 0
advance 792                             #= opened 1 | the letter of day 791 has lapsed
file 0
release 0 0 10000000000.00              #= done
# Months: the thirteen, the earliest first, credits with a minus; the largest totals.
settle 0 2021-01 -12345 0 0 0 0         #= recorded -12345 | fourteen months back
settle 0 2020-12 1 0 0 0 0              #= refused 12
settle 0 2021-07 -1 0 0 0 0             #= recorded -1
settle 0 2021-05 -99 0 0 0 0            #= recorded -99
settle 0 2021-06 -100 0 0 0 0           #= recorded -100
settle 0 2021-12 0 0 0 0 0              #= recorded 0
settle 0 2021-08 <16 1000000000000>     #= recorded 16000000000000
settle 0 2021-09 <16 -1000000000000>    #= recorded -16000000000000
settle 0 2021-10 5 0 0 0 0              #= recorded 5
settle 0 2021-10 7 0 0 0 0              #= recorded 7 | the last one counts
settle 0 2022-01 9 0 0 0 0              #= called 9 7 802
file 0
settle 0 2022-01 10 0 0 0 0             #= called 10 8 802
settle 0 2022-01 11 0 0 0 0             #= called 11 9 802
settle 0 2022-01 <16 1000000000000>     #= called 16000000000000 15999999999998 802
settle 0 2022-01 3 0 0 0 0              #= covered 3 | not above an open call
file 0
advance 802                             #= opened 10 | the last free day
file 0
advance 803                             #= opened 1
file 0
advance 2022-04-01                      #= opened 18 | month 27: January 2021 is no longer looked at
settle 0 2022-02 -1 0 0 0 0             #= covered -1
file 0
file 1
advance 2023-05-01                      #= opened 395 | no month is left
file 0
# The next amount, and a deletion.
advance 2023-08-31                      #= opened 122
settle 1 2023-05 30000.00 0 0 0 0       #= recorded 3000000
settle 1 2023-06 25000.00 0 0 0 0       #= called 2500000 2500000 1348
settle 2 2023-06 -5 0 0 0 0             #= covered -5
file 1
advance 2023-09-01                      #= opened 1
annual 1                                #= annual 3000000 2
annual 2                                #= annual 1000000 1
annual 3                                #= annual 0 0 | a next amount of 0 is one
file 1
file 2
file 3
delete 1                                #= deletion 3000000 1
delete 2                                #= deletion 0 0
delete 63                               #= deletion 0 0
file 1
file 2
file 63
annual 1                                #= refused 25
advance 2023-10-01                      #= opened 30 | both next amounts took effect
file 1
file 2
file 3
delete 3                                #= refused 24
file 3
# The ends of the calendar.
fresh 0                                 #= done
admit 0 supplier                        #= done
file 0
advance 2020-03-01                      #= opened 60
settle 0 0 1 2 3 4 5                    #= covered 15
file 0
fresh 2099-12-31                        #= done
admit 63 trader                         #= done
lodge 63 0 letter 1 0 29219             #= done
settle 63 2099-10 3000000 0 0 0 0       #= called 3000000 3000000 29229
file 63
'''

KEPT_JOURNAL = br'''\xef\xbb\xbf# The journal that is found: a byte order mark, comments, blank lines, dates and names, and a last line that a crash cut.
# It has no line `role-retired`: all of it is a first stretch, in which role 1 was admitted.

	fresh	2020-09-30     # a Wednesday
admit 10 producer
settle 10 2020-07 5 0 0 0 0
 delete\t010 # called to 5
advance 2021-01-01 1000                          # a Friday

admit 0 supplier
admit 01 trader#s
admit 2 producer
admit 6 res-aggregator
admit 7 self-supplied                            # its minimum isn't paid
admit 8 1
lodge 8 0 cash 2000000
lodge 0 0 cash 2000000                           # the minimum
lodge 1 0 letter 1000000 2021-01-01 2021-06-30   # until the end of June
  advance 2021-02-01 1000
settle 0 2020-12 2500000 0 0 0 -10
statement 0
report
calls
special 3 126 4 0 3 3253 4048 4723 3 0 0 0 1 1000000 1 1000000 1 0 1 0
lodge 0 1 cash 500000
batch {0B00 0200 14000000 2A000000 3E000000 2A000000 0605 0500000000000000 <4> 0105 <5>}  # December 2020
lodge\t2 0 cash 77'''

KEPT_STDIN = br'''\xef\xbb\xbf# What was kept is there: seven participants, 1 February 2021.
report
calls                                            #= calls 7 | four minimums, the settlement, the one of the batch and the deletion's
statement 10                                     #= statement 5 0 5 114 11400000000 1 | its deletion's call, from 11 October 2020 on
delete 10                                        #= refused 24
annual 10                                        #= refused 14
statement 0                                      #= statement 2000000 2500000 0 0 0 2 | the minimum and the settlement
statement 2                                      #= statement 0 0 0 0 0 0 | the cut line was dropped
statement 7                                      #= statement 2000000 0 2000000 21 2100000000 1 | from 12 January on
statement 8                                      #= statement 2000000 2000000 0 0 0 1
# The first stretch is over, though the journal has no line that says so.
admit 9 self-supplied                            #= refused 23
admit 9 1                                        #= refused 23
admit 9 6                                        #= refused 4
admit 64 1                                       #= refused 1
admit 7 1                                        #= refused 3 | as the one who has the role
role-retired                                     #= no answer | not kept
role-retired x                                   #= error too many words
statement 9                                      #= refused 2
fresh 2021-01-01                                 #= error fresh is not the first call
fresh 29220                                      #= error fresh is not the first call
fresh 2021-02-29                                 #= error not a day
lodge 2 0 cash 000000000000000000000000077       #= done | the first change: before it stands the line in the journal
role-retired                                     #= no answer | nor is this kept
lodge 2 0 cash 77                                #= refused 6 | not kept
lodge 2 01 letter 5000 2021-03-01 2021-03-31     #= done

admit 3 self-supplied                            #= refused 23
admit 3 supplier                                 #= done
admit 3 self-supplied                            #= refused 3
admit 64 0                                       #= refused 1
admit 4 nobody                                   #= error not a role
admit 4 res-aggregator # with a comment
settle 4 2020-12 -00 -01 0001 00 0               #= covered 0
settle 4 2020-11 1 2 3 4 5 6                     #= recorded 21
settle 4 2020-12 1 2 3 4                         #= refused 10
batch {0b00 0100 0c000000 2a000000 0405 0300000000000000 <4>}  #= batch 1 | called to 3
batch {0B00 0200 14000000 2A000000 3E000000 2A000000 0605 0600000000000000 <4> 0405 FDFFFFFFFFFFFFFF <4>}  #= batch 2 | called to 6; a credit
batch {0b00 0200 14000000 2a000000 3e000000 2a000000 0605 0700000000000000 <4> 0505 <5>}  #= refused 2 1 | not kept
batch {0c00 0100 0c000000 2a000000 0605 <5>}  #= refused 12 0
batch {0b00 0100 0c000000 2a000000 0604 <5>}  #= refused 22 0
batch {0b00 0100 0c000000 2b000000 0605 <5>}  #= refused 21 0
batch                                            #= refused 20 0
batch 0b0                                        #= error not two hexadecimal digits for each byte
batch 0b 00                                      #= error too many words
calls                                            #= calls 10
special 3 0126 +4 0                              #= error not a number
special 3 00126 04 -0 3 3253 4048 4723 3 0 00 0 1 1000000 1 01000000 1 0 1 0  #= special 500000
special 0 0 0 0 0 0 0                            #= refused 18
release 0 1 11                                   #= refused 16 | the open call is 2499990
release 0 1 10                                   #= done
release 2 0 77                                   #= done
advance 2021-02-02 99999999999999999999999       #= opened 1
advance 2021-02-11 5                             #= opened 5
advance 2021-02-11 5                             #= opened 4
advance 2021-02-11 0                             #= opened 0
advance 2021-02-10 5                             #= refused 17
calls\x00                                        #= error a control byte
cal                                              #= error no such call
statement 3                                      #= statement 0 0 0 0 0 1
advance 2021-02-12 1                             #= opened 1
statement 3                                      #= statement 2000000 0 2000000 1 100000000 1
statement 4                                      #= statement 3 0 3 1 100000000 1
statement 6                                      #= statement 6 0 6 1 100000000 2
statement 5                                      #= refused 2
# Those who have role 1 keep it, with its minimum and its annual runs. 12 February 2021, day 408.
statement 7                                      #= statement 2000000 0 2000000 32 3200000000 1
settle 7 2020-12 2000000 0 0 0 0                 #= covered 2000000 | not above the firm minimum
settle 7 2020-12 2000001 0 0 0 0                 #= called 2000001 2000001 418
settle 8 2020-12 2399999 0 0 0 0                 #= covered 2399999 | below 20%
settle 8 2020-12 5 0 0 0 0                       #= covered 5
release 8 0 1                                    #= refused 16 | the minimum is firm
calls                                            #= calls 11
delete 8                                         #= refused 24 | not kept
advance 2021-09-01 1000                          #= opened 201
annual 7                                         #= annual 2000001 1
annual 8                                         #= annual 2000000 1 | 5, raised to the minimum
admit 9 self-supplied                            #= refused 23
# Leaving participants. 1 September 2021, day 609.
annual 10                                        #= refused 25 | by the deletion that was found
delete 10                                        #= refused 24
delete 9                                         #= refused 2
delete 64                                        #= refused 1
delete                                           #= error too few words
delete 8 8                                       #= error too many words
delete x                                         #= error not a number
settle 6 2021-07 1000 0 0 0 0                    #= recorded 1000
\tdelete 00000000000000000000006\r # to 1,000    #= deletion 1000 1
delete 6                                         #= refused 24 | not kept
annual 6                                         #= refused 25
delete 08                                        #= deletion 5 0 | its firm minimum is above it
annual 8                                         #= refused 25 | its next amount stays
calls                                            #= calls 12
advance 2021-10-01 1000                          #= opened 30
statement 6                                      #= statement 1000 0 1000 232 23200000000 3 | 6 from 12 February on, 1,000 from 12 September on
delete 7                                         #= refused 24 | October
statement 7                                      #= statement 2000001 0 2000001 263 26300000000 2
statement 8                                      #= statement 2000000 2000000 0 0 0 1
report
# Files, what may be released and the day are asked for, and not kept. Amounts in euros are kept in cents, an advance with a budget.
file 0
file 7
file 9                                           #= refused 2
releasable 0 0                                   #= releasable 0 | as much is firm as is there
releasable 1 0                                   #= releasable 0 | the letter has lapsed
today                                            #= today 639 2021-10-01
lodge 2 3 cash 1234.50                           #= done
lodge 2 4 letter 0.01 2021-10-01 2021-12-31      #= done
release 2 3 1,50                                 #= error not a number
release 2 3 1.50                                 #= done
settle 2 2021-09 -20.00 0 0 0 0.05               #= refused 12
settle 2 2021-08 -20.00 0 0 0 0.05               #= covered -1995
advance 2021-10-05                               #= opened 4
advance 2021-10-05                               #= opened 0
# References: the comment behind an accepted call, without the blanks around it.
lodge 2 5 cash 100# receipt 4711
lodge 2 6 cash 100 \t #\t\r  receipt 4712, in two parts \t\r
lodge 2 7 cash 100 ### receipt # 4713 #
lodge 2 7 cash 100 # refused, so not kept
release 2 5 1 #
release 2 5 1 # \t \r
release 2 5 1 #\r\x00\x01\x7f\xff bytes stand for themselves
release 2 5 1 # \xe2\x82\xac 0.01
release 2 5 1 # [999 x] y
release 2 5 1 # [1000 x]
release 2 5 1 # [1001 x]
release 2 5 1 # [990 x] 90123456789
releasable 2 5 # a question
file 2 # and another
\tbatch {1300 0100 0c000000 2a000000 0205 0300000000000000 <4>}\t# run 12
batch {1300 0100 0c000000 2a000000 0905 0300000000000000 <4>} # refused
advance 2021-10-06 # opened by the duty officer
annual 2 # in October
admit 9 producer # entry 12
statement 9                                      #= statement 0 0 0 0 0 0
\xef\xbb\xbfcalls                                #= error no such call | a mark stands only at the start
calls                                            #= calls 12
lodge 1 7 cash 5                                 #= error line without newline, not taken'''


# ---- lines drawn from the seed

def dated(day):
    return str(reading.date(day))


def monthly(month):
    return f'{2020 + month // 12}-{month % 12 + 1:02}'


def call_words(kind, args):
    """A call of histories.py as the words of a line, each with what is due there."""
    names = ('admit', 'lodge', 'lodge', 'release', 'settle', 'annual', 'advance', 'statement', 'batch', 'delete', 'calls')
    dues = ('nr', 'nncn', 'nncndd', 'nnn', 'nm' + 's' * len(args), 'n', 'dn', 'n', 'h', 'n', '')[kind]
    args = list(args)
    if kind in (1, 2):
        args.insert(2, ('cash', 'letter')[kind - 1])
    elif kind == 4:
        args.pop(2)
    elif kind == 8:
        args = [bytes(args[1:]).hex()]
    return [('x', names[kind])] + list(zip(dues, args))


def written(rng, words):
    """A call's line, written in one of the ways that the journal allows."""
    out = []
    for due, word in words:
        if due == 'd' and word <= reading.LAST_DAY and rng.random() < 0.5:
            word = dated(word)
        elif due == 'm' and word <= 959 and rng.random() < 0.5:
            word = monthly(word)
        elif due == 'r' and word <= 5 and rng.random() < 0.6:
            word = ledger.ROLES[word]
        elif due in 'dmrns' and rng.random() < 0.03:
            sign, digits = ('-', str(-word)) if word < 0 else ('', str(word))
            word = sign + '0' * rng.randint(1, 30) + digits
        elif due == 's' and word == 0 and rng.random() < 0.05:
            word = '-0'
        elif due == 'h' and rng.random() < 0.3:
            word = rng.choice((word.upper(), ''.join(rng.choice((digit, digit.upper())) for digit in word)))
        out.append(str(word))
    if rng.random() < 0.9:
        line = ' '.join(out)
    else:
        line = rng.choice(('', ' ', '\t')) + ''.join(word + rng.choice((' ', '  ', '\t', ' \r')) for word in out)
    return (line + rng.choice(('',) * 12 + (' ', '\r', '\t', '#', ' # a comment'))).encode()


def damaged(rng, pool):
    """A line of the pool, damaged once or a few times."""
    line = bytearray(rng.choice(pool))
    for _ in range(rng.choice((1, 1, 1, 2, 3))):
        at, way = rng.randint(0, len(line)), rng.choice((0, 1, 2, 3, 4, 5, 6, 6, 7, 7, 8, 8, 8, 9, 9, 10, 11))
        if way == 0:
            del line[at:at + 1]
        elif way == 1:
            line[at:at + 1] = bytes([rng.choice(b' \t\r#-+.,0123456789abcdelrst\x00\x07\x7f\x80\xff')])
        elif way == 2:
            line[at:at] = bytes([rng.choice(b' \t\r#-+.,0123456789abcdelrst\x00\x07\x7f\x80\xff')])
        elif way == 3:
            line[at:at + 1] = bytes([rng.choice([b for b in range(256) if b != 10])])
        elif way == 4:
            del line[at:]
        elif way == 5:
            del line[:at]
        else:
            words = line.split(b' ')
            k = rng.randrange(len(words))
            if way == 6:
                words.insert(k, words[k])
            elif way == 7:
                del words[k]
            elif way == 8:
                other = rng.choice(pool).split(b' ')
                words[k] = rng.choice(other)
            elif way == 9:
                words[k] = rng.choice((b'', b'-', b'+1', b'-1', b'0', b'18446744073709551616', b'9223372036854775808', b'-9223372036854775809',
                                       b'2021-02-29', b'2021-1-01', b'2100-01', b'2022-03-01', b'2022-01', b'cash', b'letter', b'trader',
                                       b'self-supplied', b'role-retired'))
            elif way == 10:
                words = words[:k] + rng.choice(pool).split(b' ')
            else:
                j = rng.randrange(len(words))
                words[j], words[k] = words[k], words[j]
            line = bytearray(b' '.join(words))
    return bytes(line).replace(b'\n', b' ')


def history_lines(rng, i, most):
    """A history of histories.py, its first calls. Where its first stretch has role 1, the filter, which has none, gets role 0 with the same minimum."""
    made = histories.make(SEED, i)
    lines = [written(rng, [('x', 'fresh'), ('d', made.start)])]
    for place, text in enumerate(made.text().splitlines()[1:][:most]):
        kind, *args = map(int, text.split())
        if kind == 0 and args[1] == reading.RETIRED and place < made.first:
            args[1] = 0
        lines.append(written(rng, call_words(kind, args)))
    return lines


def special_line(rng):
    rates, cents = (-100000, 100000, 0, 1, -1, 4, 126, 3253, 4048), (0, 1, -1, 10 ** 12, -10 ** 12, 5000, 7762366, 8919274)
    low, semesters = rng.choice((3, 3, 3, 4, 5, 6, 2)), rng.choice((0, 1, 2, 4, 16))
    lists = [[rng.choice(rates) for _ in range(rng.choice((3, 3, 3, 4, 7, 2)))], [rng.choice(rates) for _ in range(low)],
             [int(rng.random() < 0.15) for _ in range(low)]]
    lists += [[rng.choice(cents) for _ in range(semesters)] for _ in range(2)]
    lists += [[abs(rng.choice(cents)) if rng.random() < 0.3 else 0 for _ in range(semesters)] for _ in range(2)]
    if rng.random() < 0.1:
        rng.choice(lists).append(rng.choice((0, 1, -1, 2)))
    if rng.random() < 0.1:
        lists[rng.randrange(7)][:1] = [rng.choice((100001, -100001, 10 ** 12 + 1, -1, 2 ** 63))]
        lists[2] = [abs(mark) for mark in lists[2]]
    return ' '.join(['special'] + [' '.join(map(str, [len(numbers)] + numbers)) for numbers in lists]).encode()


SHORT = [b'lodge 0 0 cash 2000000', b'lodge 0 1 letter 500000 2022-03-01 2022-12-31', b'lodge 1 0 letter 1000000 700 29219', b'lodge 2 7 cash 5',
         b'release 0 0 1000000', b'release 1 0 1000000', b'release 2 7 5', b'settle 0 2022-01 2400000 0 0 0 -5', b'settle 1 24 1 2 3 4 5 6',
         b'settle 2 2021-12 900 0 0 0 0', b'settle 2 2022-07 900 0 0 0 0', b'annual 0', b'annual 2', b'advance 2022-03-12 3',
         b'advance 2022-10-01 40', b'statement 0', b'statement 1', b'statement 2', b'calls', b'report', b'admit 3 trader', b'admit 63 5',
         b'admit 4 self-supplied', b'role-retired', b'delete 0', b'delete 2', b'settle 2 2022-07 1200 0 0 0 0',
         b'batch 180001000c0000002a0000000005' + b'00' * 40, b'batch 170001000C0000002A0000000205' + b'FF' * 40,
         b'batch 18000200140000002a0000003e0000002a0000000005' + b'00' * 39 + b'7f0205' + b'01' + b'00' * 39]


def random_lines():
    rng = random.Random(f'ledger tests {SEED}')
    lines, pool = [b'', b'# ---- Histories, written in many ways.'], []
    for i, most in ((0, 90), (1, 100), (3, 80), (4, 80), (5, 80), (7, 100), (9, 50), (12, 90), (13, 90)):
        made = history_lines(rng, i, most)
        lines += made + [b'report']
        pool += made
    lines += [b'', b'# ---- Special guarantees.']
    made = [special_line(rng) for _ in range(40)]
    lines += made
    pool += made[:12]
    lines += [b'', b'# ---- Damaged lines among whole ones.']
    pool = pool[::8] + SHORT * 8
    for k in range(560):
        if k % 40 == 0:
            lines += [rng.choice((b'fresh 2022-03-01', b'fresh 2022-09-08')), b'admit 0 supplier', b'admit 1 2', b'admit 2 producer']
        lines.append(rng.choice(SHORT) if k % 5 == 0 else damaged(rng, pool))
    lines += [b'', b'# ---- Random bytes.']
    for _ in range(30):
        lines.append(bytes(rng.choice([b for b in range(256) if b != 10]) for _ in range(rng.randint(1, 12))))
    for _ in range(40):
        lines.append(bytes(rng.choice(b' 0123456789-#acdehlmnrstu') for _ in range(rng.randint(1, 24))))
    return lines


# Lines among which the new ones stand when they are damaged.
NEW = [b'file 0', b'file 1', b'file 2', b'releasable 0 0', b'releasable 0 1', b'releasable 1 0', b'releasable 2 7', b'today', b'advance 2022-03-12',
       b'advance 800', b'lodge 0 0 cash 20000.00', b'lodge 0 1 letter 5000.50 2022-03-01 2022-12-31', b'lodge 2 7 cash 0.05', b'release 0 0 10000.00',
       b'release 0 1 5000.50', b'release 2 7 0.05', b'settle 0 2022-01 24000.00 0 0 0 -0.05', b'settle 1 24 1.00 -2 3 -4.00 5.00 6',
       b'settle 2 2021-12 -9.00 0 0 0 0', b'annual 0', b'delete 2', b'statement 0', b'report']


def euro_words(rng, words):
    """The words of a call, some amounts and figures in euros."""
    place = {'lodge': 4, 'release': 3}.get(words[0][1])
    for k, (due, word) in enumerate(words):
        if (k == place or due == 's') and rng.random() < 0.6:
            sign, digits = ('-', str(-word)) if word < 0 else ('', str(word))
            digits = '0' * rng.choice((0, 0, 0, 0, 9)) + digits.zfill(3)
            words[k] = 'x', f'{sign}{digits[:-2]}.{digits[-2:]}'
    return words[:-1] if words[0][1] == 'advance' and words[-1][1] >= reading.LAST_DAY else words


def asked_lines(rng, i, most):
    """A history of histories.py as above, with amounts in euros, whose files are asked for; what may be released is tried."""
    made, to, lines = histories.make(SEED, i), ledger.Filter(), []

    def add(line):
        lines.append(line)
        return to.answer(line)

    add(written(rng, [('x', 'fresh'), ('d', made.start)]))
    for place, text in enumerate(made.text().splitlines()[1:][:most]):
        kind, *args = map(int, text.split())
        if kind == 0 and args[1] == reading.RETIRED and place < made.first:
            args[1] = 0
        add(written(rng, euro_words(rng, call_words(kind, args))))
        people = sorted(to.ledger.book.people)
        if people and rng.random() < 0.4:
            p = rng.choice(people)
            full = [k for k in range(8) if to.ledger.book.people[p].position(k, to.ledger.book.today)]
            k = rng.choice(full or [0]) if rng.random() < 0.8 else rng.randrange(9)
            found = add(b'releasable %d %d' % (p, k)).split()
            if found[0] == 'releasable' and rng.random() < 0.4:
                add(b'release %d %d %d' % (p, k, int(found[1]) + 1))
                if rng.random() < 0.3:
                    add(b'release %d %d %d' % (p, k, int(found[1])))
        if people and rng.random() < 0.2:
            add(b'file %d' % rng.choice(people))
        if rng.random() < 0.05:
            add(b'today')
    return lines


def random_new_lines():
    """The same as random_lines for the lines that came later; those above stay as they were."""
    rng = random.Random(f'ledger tests, files and releases {SEED}')
    lines, pool = [b'', b'# ---- Histories with amounts in euros, whose files are asked for.'], []
    for i, most in ((2, 60), (6, 70), (8, 60), (10, 70), (11, 60)):
        made = asked_lines(rng, i, most)
        lines += made + [b'report']
        pool += [line for line in made if len(line) < 200]
    lines += [b'', b'# ---- Damaged lines among these.']
    pool = pool[::8] + NEW * 6
    for k in range(240):
        if k % 40 == 0:
            lines += [b'fresh 2022-03-01', b'admit 0 supplier', b'admit 1 2', b'admit 2 producer']
        lines.append(rng.choice(NEW) if k % 4 == 0 else damaged(rng, pool))
    return lines


EXAMPLES = ('year', 'manual', 'month', 'letters', 'leaving', 'users')
KEPT_EXAMPLES = {'retired': 'kept_by_1_3'}           # calls, and the journal that they are typed behind


def example(name):
    with open(os.path.join(ROOT, 'examples', name + '.journal'), 'rb') as file:
        return file.read()


def month_differs():
    """What differs between examples/month.csv, the file that tools/make_batch makes of it, and the line in examples/month.journal."""
    def made(*words):
        words = [sys.executable, os.path.join(ROOT, 'tools', 'make_batch'), *words, '2021-01', os.path.join(ROOT, 'examples', 'month.csv')]
        return subprocess.run(words, stdout=subprocess.PIPE, check=True).stdout

    with open(os.path.join(ROOT, 'examples', 'month.batch'), 'rb') as file:
        data = file.read()
    wrong = ['month.batch is not what tools/make_batch makes of month.csv'] * (made() != data)
    return wrong + ['month.journal has not the line of month.csv'] * (b'\n' + made('--hex')[:-1] + b'  #= batch 4\n' not in example('month'))


def example_lines(names):
    """The calls of the examples, which begin with a fresh book: they are answered as they are by themselves."""
    lines = []
    for name in names:
        calls = [line.partition(b'#')[0].rstrip() for line in example(name).splitlines()]
        lines += [b'', f'# ---- The calls of examples/{name}.journal.'.encode()] + [line for line in calls if line]
    return lines


def largest_batch():
    """A batch for all 64 participants with 16 rows each, the largest that is accepted; and the same with the last part of an unknown one."""
    lines = [b'', b'# ---- A batch of 64 parts with 16 rows.', b'fresh 2022-03-01'] + [b'admit %d producer' % p for p in range(63)]
    data = histories.File(24, [(p, [p] * 16) for p in range(64)]).bytes()
    assert len(data) == 4 + 8 * 64 + 64 * (2 + 8 * 16) == 8836
    line = b'batch ' + data.hex().encode()
    return lines + [line,                                           # refused 2 63
                    b'calls #= calls 0', b'admit 63 producer #= done',
                    line,                                           # batch 64
                    b'calls #= calls 63', b'advance 801 11 #= opened 11', b'statement 0 #= statement 0 0 0 0 0 0',
                    b'statement 63 #= statement 1008 0 1008 1 100000000 1']


def long_lines():
    """Lines at the largest length, and longer ones. The first of the settlements fits, with a comment of one byte."""
    most = ledger.LONGEST
    start = b'settle 0 2022-01'
    figures = start + b' 7' * ((most - len(start)) // 2)
    figures += b'7' * (most - len(figures))
    assert len(figures) == most
    return [b'', b'# ---- Long lines: 65,535 bytes are read, longer ones are not.', b'fresh 2022-03-01', b'admit 0 producer',
            figures,                                                # refused 10
            b'calls' + b' ' * (most - 5) + b'x',                    # too long, though it would be no call
            b'calls #= calls 0',
            b'# too long, though a comment ' + b'. ' * most,
            b'batch ' + b'0' * 65528,                               # refused 20 0
            b'batch  ' + b'0' * 65528,                              # the same, at the largest length
            b'batch ' + b'0' * 65530,                               # too long
            b'lodge 0 0 cash ' + b'0' * 4985 + b'100 #= done',
            b'statement 0 #= statement 0 100 0 0 0 0']


def lines_of(text):
    r"""The lines of a text above: \t, \r, \xHH and \\ are the bytes that they name, <16 1> is sixteen words 1, and {18 00} is one word of the
    digits between the braces, where <4> is four figures of 0. [999 x] is a word of 999 letters x."""
    text = text.strip(b'\n').decode('unicode_escape').encode('latin-1')
    text = re.sub(rb'<([0-9]+) (-?[0-9]+)>', lambda run: b' '.join([run[2]] * int(run[1])), text)
    text = re.sub(rb'\[([0-9]+) ([a-z])\]', lambda run: run[2] * int(run[1]), text)
    text = re.sub(rb'<([0-9]+)>', lambda run: b'00' * 8 * int(run[1]), text)
    return re.sub(rb'\{([0-9A-Fa-f ]+)\}', lambda digits: digits[1].replace(b' ', b''), text).split(b'\n')


def due_answers(lines, to, torn=True):
    """Answers the lines, of which the last has no newline or has one, and gives the answers and the differences from what is due."""
    out, wrong = [], []
    for n, line in enumerate(lines, 1):
        answer = to.answer(line, n < len(lines) or not torn)
        if answer is not None:
            out.append(answer)
        if b'#= ' in line and len(line) < 10000:
            due = line.partition(b'#= ')[2].partition(b' | ')[0].strip().decode('latin-1')
            got = answer.replace(f'error {to.line} ', 'error ') if answer else 'no answer'
            if got != due:
                wrong.append(f'line {to.line}: {line.decode("latin-1")}: {got}')
    return out, wrong


def kept_run(journal, lines, torn=True):
    """Keeps a journal, whose last line has no newline or is empty: the answers to the lines, the differences from what is due, and the journal
    left."""
    with tempfile.TemporaryDirectory() as folder:
        path = os.path.join(folder, 'journal')
        write(folder, 'journal', b'\n'.join(journal))
        said = io.StringIO()
        with contextlib.redirect_stderr(said):
            keeper = ledger.Keeper(path)
        assert said.getvalue() == (f'ledger: {path}: the last line has no end and is dropped: lodge?2 0 cash 77\n' if journal[-1] else '')
        out, wrong = due_answers(lines, keeper, torn)
        keeper.file.close()
        with open(path, 'rb') as file:
            return out, wrong, file.read()


def write(folder, name, data):
    path = os.path.join(folder, name)
    os.makedirs(os.path.dirname(path), exist_ok=True)
    with open(path, 'wb') as file:
        file.write(data)


def main():
    wrong = month_differs()
    for name in EXAMPLES:
        wrong += [f'{name}, {line}' for line in due_answers(example(name).splitlines(), ledger.Filter())[1]]
        write(ROOT, f'examples/{name}.expected', ledger.answers(example(name)))
    for name, before in KEPT_EXAMPLES.items():
        out, more, kept = kept_run(example(before).split(b'\n'), example(name).splitlines(), False)
        wrong += [f'{name}, {line}' for line in more]
        write(ROOT, f'examples/{name}.expected', ''.join(answer + '\n' for answer in out).encode())
        write(ROOT, f'examples/{name}.kept', kept)
    lines = lines_of(BEFORE) + example_lines(EXAMPLES[:5]) + random_lines() + largest_batch() + long_lines()
    lines += [b''] + lines_of(BEHIND) + example_lines(EXAMPLES[5:]) + random_new_lines()
    lines += [b'', b'# ---- The last line has no newline.', b'statement 0']
    out, more = due_answers(lines, ledger.Filter())
    wrong += more
    stdin, stdout = b'\n'.join(lines), ''.join(answer + '\n' for answer in out).encode()
    assert ledger.answers(stdin) == stdout
    write(ROOT, 'crates/ledger/stdin', stdin)
    write(ROOT, 'crates/ledger/stdout', stdout)

    lines = lines_of(KEPT_STDIN)
    out, more, kept = kept_run(lines_of(KEPT_JOURNAL), lines)
    write(ROOT, 'crates/keeping/data/journal', b'\n'.join(lines_of(KEPT_JOURNAL)))
    write(ROOT, 'crates/keeping/stdin', b'\n'.join(lines))
    write(ROOT, 'crates/keeping/stdout', ''.join(answer + '\n' for answer in out).encode() + b'--\n' + kept)

    kinds = {}
    for answer in stdout.decode().splitlines():
        words = answer.split()
        at = ' at a pair' if len(words) == 3 else ''
        key = words[0] if words[0] not in ('refused', 'error') else f'refused {words[1]}{at}' if words[0] == 'refused' else ' '.join(words[2:])
        kinds[key] = kinds.get(key, 0) + 1
    due = [f'refused {n}' for n in (*range(1, 20), 23, 24, 25)] + [f'refused {n} at a pair' for n in (1, 2, 10, 11, 12, 13, 20, 21, 22)] + [
        'a control byte', 'no such call', 'too few words', 'too many words', 'not a number', 'not a day', 'not a month', 'not a role',
        'neither cash nor letter', 'line too long', 'not two hexadecimal digits for each byte',
        'batch', 'done', 'called', 'covered', 'recorded', 'annual', 'opened', 'statement', 'calls', 'special', 'report', 'deletion', 'file',
        'releasable', 'today']
    print(f'filter: {stdin.count(10) + 1} lines, {len(stdin)} bytes; {stdout.count(10)} lines of answers, {len(stdout)} bytes')
    print('answers: ' + ', '.join(f'{key}: {kinds.get(key, 0)}' for key in due))
    for line in wrong + more + [f'not met: {key}' for key in due if key not in kinds]:
        print(line)
    return 1 if wrong or more or any(key not in kinds for key in due) else 0


if __name__ == '__main__':
    sys.exit(main())
