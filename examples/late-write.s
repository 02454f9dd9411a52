span-schedule 1
replicas 3
set strong 1 0/0,1,2/0,1,2 1/0,1,2/0,1,2
key 0
proxy 0
proxy 1
begin
publish 0 strong 1 0/0,1,2/0,1,2 1/0,1,2/0,1,2
move 0 0
deliver 0
deliver 1
deliver 2
deliver 3
deliver 5
deliver 6
deliver 7
deliver 8
deliver 10
deliver 11
deliver 12
deliver 13
write 1 0 cc
deliver 14
deliver 15
deliver 17
deliver 18
deliver 19
deliver 20
deliver 21
deliver 22
deliver 24
deliver 25
deliver 26
deliver 27
deliver 29
deliver 30
