local rounds = tonumber(arg[1])
local s = {}
for k = 0, 999 do
  s[k] = 0
end
local i, j = 0, 0
while i < rounds do
  s[j] = s[j] + i
  j = j + 1
  if j == 1000 then
    j = 0
  end
  i = i + 1
end
