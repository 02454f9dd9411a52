span-schedule 1
replicas 3
set strong 1 0/0,1,2/0,1,2 1/0,1,2/0,1,2
key 0
proxy 0
proxy 1
begin
write 0 0 aa
deliver 0
deliver 1
deliver 3
deliver 4
write 1 0 bb
deliver 9
deliver 10
deliver 5
deliver 6
deliver 7
deliver 13
deliver 14
deliver 15
stop proxy 1
read 0 0
deliver 16
deliver 17
deliver 19
deliver 20
deliver 21
deliver 22
deliver 24
deliver 25
