local rounds = tonumber(arg[1])
local function add(a, b)
  return a + b
end
local x, i = 0, 0
while i < rounds do
  x = add(x, i)
  i = i + 1
end
