span-schedule 1
replicas 3
set relay 0 1,2 0>1>1,1
key 0
proxy 0
begin
put 0 0 cc
deliver 0
deliver 2
deliver 3
deliver 1
get 0 0
deliver 4
deliver 5
