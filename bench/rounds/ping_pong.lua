local rounds = tonumber(arg[1])
local pong = coroutine.wrap(function(n)
  while true do
    n = coroutine.yield(n + 1)
  end
end)
local n = 0
for _ = 1, rounds do
  n = pong(n)
end
