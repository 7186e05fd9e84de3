# properties of German as those of English; a perfect is a past
s/NUM: \([sp].\) PERS: \([123]\)../PNG: \2\1/g
s/PERF: minus SF: prop TENSE:/TENSE:/g
s/PERF: plus SF: prop TENSE: [a-z]*/TENSE: past/g
