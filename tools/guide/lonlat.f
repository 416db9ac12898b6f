C (proof 1)
C (1 (goal) (or (not (= angle?0 (reclat-lon V))) (not (= angle?1 (reclat
C+-lat V)))) (answer angle?0 angle?1))
C (2 (reflex 1 1 (with (reclat-lon V) angle?0)) (or (not (= angle?0 (rec
C+lat-lat V)))) (answer (reclat-lon V) angle?0))
C (3 (reflex 2 1 (with (reclat-lat V))) (or) (answer (reclat-lon V) (rec
C+lat-lat V)))
      SUBROUTINE LONLAT(V, LON, LAT)
      DOUBLE PRECISION V(3)
      DOUBLE PRECISION LON
      DOUBLE PRECISION LAT
      DOUBLE PRECISION T00001
      CALL RECLAT(V, T00001, LON, LAT)
      END
