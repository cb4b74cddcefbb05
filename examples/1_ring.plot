amr-plot 1
name ring
step 1
ledger 0 8 0 0
ledger 1 8 0 0
level 0 1
box 0 0 3 1
4 4 0 0
0 0 0 0
end
