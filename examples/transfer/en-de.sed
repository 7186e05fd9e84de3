# properties of English as those of German
s/PNG: \([123]\)\([sp].\)/NUM: \2 PERS: \1/g
s/PERS: 1/PERS: 1st/g
s/PERS: 2/PERS: 2nd/g
s/PERS: 3/PERS: 3rd/g
s/TENSE: pres/PERF: minus SF: prop &/g
s/TENSE: past/PERF: minus SF: prop &/g
