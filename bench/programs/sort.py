N = 20000
seed = 1

def rand():
    global seed
    seed = (seed * 1103515245 + 12345) & 0xFFFFFFFF
    return (seed >> 8) & 0xFFFF

def qsort(v, l, r):
    if l < r:
        p, i, j = v[(l + r) // 2], l, r
        while True:
            while v[i] < p:
                i += 1
            while p < v[j]:
                j -= 1
            if i <= j:
                v[i], v[j] = v[j], v[i]
                i += 1
                j -= 1
            if i > j:
                break
        qsort(v, l, j)
        qsort(v, i, r)

def run():
    bad = 0
    v = []
    for r in range(20):
        v = [rand() for i in range(N)]
        qsort(v, 0, N - 1)
        for i in range(1, N):
            if v[i] < v[i - 1]:
                bad += 1
    print(f"{bad}{v[N // 2]}")

run()
