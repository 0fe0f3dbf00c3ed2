local rounds = tonumber(arg[1])
local x, i = 0, 0
while i < rounds do
  x = x * 3 + i
  i = i + 1
end
