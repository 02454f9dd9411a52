span-schedule 1
replicas 3
set strong 1 0/0,1,2/0,1,2 1/0,1,2/0,1,2
key 0
proxy 0
proxy 1
begin
write 0 0 aa
write 1 0 bb
deliver 3
deliver 4
deliver 0
deliver 1
deliver 8
deliver 9
deliver 6
deliver 7
deliver 10
deliver 11
deliver 13
deliver 14
