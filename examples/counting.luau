local sum = 0
local i = 0
while i < 10 do
    i = i + 1
    local square = i * i
    if square > 20 then
        sum = sum + square
    else
        print(square)
    end
end
print(sum)
