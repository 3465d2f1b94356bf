coz-ticks	version=1	budget=100000000	points=1
point	index=0	name=examples/longer.c:29
experiment	selected=examples/longer.c:16	speedup=0	end=exited:0	time=47134600	delay=0	retired=138534	starts=50030
output	length=22	sha256=eefb052ba93f89d7ca6b6a8b9a69a75fed9f61fee155bbfb7b5725230446a929
throughput-point	index=0	delta=10
visits	sha256=5991845a9d21f04aee05728dc96fa81ecb43773d3c41ac49dd60d8bf052ce35a
experiment	selected=examples/longer.c:16	speedup=25	end=exited:0	time=47134600	delay=10750750	retired=138534	starts=50030
output	length=22	sha256=eefb052ba93f89d7ca6b6a8b9a69a75fed9f61fee155bbfb7b5725230446a929
throughput-point	index=0	delta=10
visits	sha256=e2793bff0c0b55923d68a4c4408d9fab2e5702e129abeb1cd4902958784d0afc
experiment	selected=examples/longer.c:16	speedup=50	end=exited:0	time=55731100	delay=21501500	retired=139494	starts=50030
output	length=22	sha256=eefb052ba93f89d7ca6b6a8b9a69a75fed9f61fee155bbfb7b5725230446a929
throughput-point	index=0	delta=10
visits	sha256=dc523f35af12851c7d155a6be6b578f0a846ce167c12115c6f114a5c7d15050f
experiment	selected=examples/longer.c:16	speedup=75	end=exited:0	time=66481850	delay=32252250	retired=139494	starts=50030
output	length=22	sha256=eefb052ba93f89d7ca6b6a8b9a69a75fed9f61fee155bbfb7b5725230446a929
throughput-point	index=0	delta=10
visits	sha256=dc523f35af12851c7d155a6be6b578f0a846ce167c12115c6f114a5c7d15050f
experiment	selected=examples/longer.c:23	speedup=0	end=exited:0	time=47134600	delay=0	retired=138534	starts=35030
output	length=22	sha256=eefb052ba93f89d7ca6b6a8b9a69a75fed9f61fee155bbfb7b5725230446a929
throughput-point	index=0	delta=10
visits	sha256=5991845a9d21f04aee05728dc96fa81ecb43773d3c41ac49dd60d8bf052ce35a
experiment	selected=examples/longer.c:23	speedup=25	end=exited:0	time=54660350	delay=7525750	retired=138534	starts=35030
output	length=22	sha256=eefb052ba93f89d7ca6b6a8b9a69a75fed9f61fee155bbfb7b5725230446a929
throughput-point	index=0	delta=10
visits	sha256=5991845a9d21f04aee05728dc96fa81ecb43773d3c41ac49dd60d8bf052ce35a
experiment	selected=examples/longer.c:23	speedup=50	end=exited:0	time=62186100	delay=15051500	retired=138534	starts=35030
output	length=22	sha256=eefb052ba93f89d7ca6b6a8b9a69a75fed9f61fee155bbfb7b5725230446a929
throughput-point	index=0	delta=10
visits	sha256=5991845a9d21f04aee05728dc96fa81ecb43773d3c41ac49dd60d8bf052ce35a
experiment	selected=examples/longer.c:23	speedup=75	end=exited:0	time=69711850	delay=22577250	retired=138534	starts=35030
output	length=22	sha256=eefb052ba93f89d7ca6b6a8b9a69a75fed9f61fee155bbfb7b5725230446a929
throughput-point	index=0	delta=10
visits	sha256=5991845a9d21f04aee05728dc96fa81ecb43773d3c41ac49dd60d8bf052ce35a
