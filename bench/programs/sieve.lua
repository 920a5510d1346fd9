local LIM, ROUNDS = 30000, 60

local function sieve()
    local count = 0
    local v = {}
    for r = 1, ROUNDS do
        count = 0
        for i = 2, LIM do v[i] = true end
        for i = 2, LIM do
            if v[i] then
                local j = i + i
                count = count + 1
                while j <= LIM do
                    v[j] = false
                    j = j + i
                end
            end
        end
    end
    return count
end

print(sieve())
