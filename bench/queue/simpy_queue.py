# The same model in SimPy.
import math, random, sys, time
import simpy
customers, gap, service, servers = (int(x) for x in sys.argv[1:5])
env = simpy.Environment()
desk = simpy.Resource(env, capacity=servers)
rng = random.Random(1)
waited = 0; begun = 0
def customer():
    global waited, begun
    came = env.now
    with desk.request() as turn:
        yield turn
        waited += env.now - came; begun += 1
        yield env.timeout(int(rng.expovariate(1 / service)))
def arrivals():
    for _ in range(customers):
        yield env.timeout(int(rng.expovariate(1 / gap)))
        env.process(customer())
t = time.process_time()
env.process(arrivals())
env.run()
t = time.process_time() - t
print(f"{begun} mean wait {waited / begun:.1f}; {t * 1e6 / customers:.2f} us of processor a customer")
