local width = 12
local height = 7
local depth = 5

local volume = width * height * depth
local surface = 2 * width * height + 2 * width * depth + 2 * height * depth
print(volume)
print(surface)

local balance = 1000
local balance = balance - 15 * 3 + 200
print(balance)

print(94906265 * 94906265)
