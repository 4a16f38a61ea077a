profile 1
entry gcd.1 4
site gcd.1 0 2
entry never.1 0
site never.1 0 0
entry main 1
site main 0 2
site main 1 0
end
