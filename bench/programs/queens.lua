local count = 0
local everything = 1

local function attempt(ld, row, rd)
    if row == everything then
        count = count + 1
    else
        local poss = everything & ~(ld | row | rd)
        while poss ~= 0 do
            local p = poss & -poss
            poss = poss - p
            attempt((ld + p) << 1, row + p, (rd + p) >> 1)
        end
    end
end

for i = 1, 11 do
    count = 0
    attempt(0, 0, 0)
    print(count)
    everything = 2 * everything + 1
end
