C (proof 1)
C (1 (axiom 2 1) (or (= (toward body?0 et?1 frame?2) (unit (position bod
C+y?0 et?1 frame?2)))))
C (2 (goal) (or (not (= vector?0 (toward B T j2000)))) (answer vector?0)
C+)
C (3 (rewrite 1 1 left 2 1 (2) (with B T j2000) (with vector?0)) (or (no
C+t (= vector?0 (unit (position B T j2000))))) (answer vector?0))
C (4 (reflex 3 1 (with (unit (position B T j2000)))) (or) (answer (unit
C+ (position B T j2000))))
      SUBROUTINE BODY(B, T, D)
      INTEGER B
      DOUBLE PRECISION T
      DOUBLE PRECISION D(3)
      DOUBLE PRECISION T00001(3)
      CALL BODPOS(B, T, 'J2000', T00001)
      CALL VHAT(T00001, D)
      END
