local N = 20000
local seed = 1

local function rand()
    seed = (seed * 1103515245 + 12345) & 0xFFFFFFFF
    return (seed >> 8) & 0xFFFF
end

local function qsort(v, l, r)
    if l < r then
        local p, i, j = v[(l + r) // 2], l, r
        repeat
            while v[i] < p do i = i + 1 end
            while p < v[j] do j = j - 1 end
            if i <= j then
                v[i], v[j] = v[j], v[i]
                i = i + 1
                j = j - 1
            end
        until i > j
        qsort(v, l, j)
        qsort(v, i, r)
    end
end

local function run()
    local bad = 0
    local v = {}
    for r = 1, 20 do
        for i = 0, N - 1 do v[i] = rand() end
        qsort(v, 0, N - 1)
        for i = 1, N - 1 do
            if v[i] < v[i - 1] then bad = bad + 1 end
        end
    end
    print(bad .. v[N // 2])
end

run()
