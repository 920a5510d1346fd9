LIM, ROUNDS = 30000, 60

def sieve():
    count = 0
    for r in range(ROUNDS):
        count = 0
        v = [True] * (LIM + 1)
        for i in range(2, LIM + 1):
            if v[i]:
                j = i + i
                count += 1
                while j <= LIM:
                    v[j] = False
                    j += i
    return count

print(sieve())
