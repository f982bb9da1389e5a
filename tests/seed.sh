# For the scripts that draw at random: PUMP_SEED, where it is not set, follows from the commit, so that each commit tries other maps.
# The draws print it, and PUMP_SEED=n draws the same again.
if [ -z "${PUMP_SEED:-}" ]; then
  commit=$(git rev-parse HEAD 2>/dev/null) || commit=000007ea
  PUMP_SEED=$((16#${commit:0:8}))
fi
export PUMP_SEED
