count = 0
everything = 1

def attempt(ld, row, rd):
    global count
    if row == everything:
        count += 1
    else:
        poss = everything & ~(ld | row | rd)
        while poss:
            p = poss & -poss
            poss -= p
            attempt((ld + p) << 1, row + p, (rd + p) >> 1)

for i in range(1, 12):
    count = 0
    attempt(0, 0, 0)
    print(count)
    everything = 2 * everything + 1
