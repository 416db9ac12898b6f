C (proof 1)
C (1 (axiom 1 1) (or (= (utc-time utc?0) (time-of (utc2et utc?0)))))
C (2 (axiom 2 1) (or (= (coords frame?0 body?1 (time-of et?2) (body-plac
C+e body?3 (time-of et?2))) (spkezp-pos body?3 et?2 frame?0 none body?1)
C+)))
C (3 (axiom 3 1) (or (= (coords frame?0 body?1 time?2 (nearest (ellipsoi
C+d frame?0 body?1 time?2 km?3 km?4 km?5) point?6)) (nearpt-point (coord
C+s frame?0 body?1 time?2 point?6) km?3 km?4 km?5))))
C (4 (goal) (or (not (= time?0 (utc-time UTC))) (not (= surface?1 (ellip
C+soid FRAME BODY time?0 A B C))) (not (= point?2 (body-place CRAFT time
C+?0))) (not (= point?3 (nearest surface?1 point?2))) (not (= vector?4 (
C+coords FRAME BODY time?0 point?3)))) (answer vector?4))
C (5 (rewrite 1 1 left 4 1 (2) (with UTC) (with time?0 surface?1 point?2
C+ point?3 vector?4)) (or (not (= time?0 (time-of (utc2et UTC)))) (not (
C+= surface?1 (ellipsoid FRAME BODY time?0 A B C))) (not (= point?2 (bod
C+y-place CRAFT time?0))) (not (= point?3 (nearest surface?1 point?2)))
C+ (not (= vector?4 (coords FRAME BODY time?0 point?3)))) (answer vector
C+?4))
C (6 (reflex 5 1 (with (time-of (utc2et UTC)) surface?0 point?1 point?2
C+ vector?3)) (or (not (= surface?0 (ellipsoid FRAME BODY (time-of (utc2
C+et UTC)) A B C))) (not (= point?1 (body-place CRAFT (time-of (utc2et U
C+TC))))) (not (= point?2 (nearest surface?0 point?1))) (not (= vector?3
C+ (coords FRAME BODY (time-of (utc2et UTC)) point?2)))) (answer vector?
C+3))
C (7 (reflex 6 1 (with (ellipsoid FRAME BODY (time-of (utc2et UTC)) A B
C+ C) point?0 point?1 vector?2)) (or (not (= point?0 (body-place CRAFT (
C+time-of (utc2et UTC))))) (not (= point?1 (nearest (ellipsoid FRAME BOD
C+Y (time-of (utc2et UTC)) A B C) point?0))) (not (= vector?2 (coords FR
C+AME BODY (time-of (utc2et UTC)) point?1)))) (answer vector?2))
C (8 (reflex 7 1 (with (body-place CRAFT (time-of (utc2et UTC))) point?0
C+ vector?1)) (or (not (= point?0 (nearest (ellipsoid FRAME BODY (time-o
C+f (utc2et UTC)) A B C) (body-place CRAFT (time-of (utc2et UTC)))))) (n
C+ot (= vector?1 (coords FRAME BODY (time-of (utc2et UTC)) point?0)))) (
C+answer vector?1))
C (9 (reflex 8 1 (with (nearest (ellipsoid FRAME BODY (time-of (utc2et U
C+TC)) A B C) (body-place CRAFT (time-of (utc2et UTC)))) vector?0)) (or
C+ (not (= vector?0 (coords FRAME BODY (time-of (utc2et UTC)) (nearest (
C+ellipsoid FRAME BODY (time-of (utc2et UTC)) A B C) (body-place CRAFT (
C+time-of (utc2et UTC)))))))) (answer vector?0))
C (10 (rewrite 3 1 left 9 1 (2) (with FRAME BODY (time-of (utc2et UTC))
C+ A B C (body-place CRAFT (time-of (utc2et UTC)))) (with vector?0)) (or
C+ (not (= vector?0 (nearpt-point (coords FRAME BODY (time-of (utc2et UT
C+C)) (body-place CRAFT (time-of (utc2et UTC)))) A B C)))) (answer vecto
C+r?0))
C (11 (rewrite 2 1 left 10 1 (2 1) (with FRAME BODY (utc2et UTC) CRAFT)
C+ (with vector?0)) (or (not (= vector?0 (nearpt-point (spkezp-pos CRAFT
C+ (utc2et UTC) FRAME none BODY) A B C)))) (answer vector?0))
C (12 (reflex 11 1 (with (nearpt-point (spkezp-pos CRAFT (utc2et UTC) FR
C+AME none BODY) A B C))) (or) (answer (nearpt-point (spkezp-pos CRAFT (
C+utc2et UTC) FRAME none BODY) A B C)))
      SUBROUTINE NEARSC(UTC, CRAFT, BODY, FRAME, A, B, C, NPT)
      CHARACTER*(*) UTC
      INTEGER CRAFT
      INTEGER BODY
      CHARACTER*(*) FRAME
      DOUBLE PRECISION A
      DOUBLE PRECISION B
      DOUBLE PRECISION C
      DOUBLE PRECISION NPT(3)
      DOUBLE PRECISION T00001
      DOUBLE PRECISION T00002(3)
      DOUBLE PRECISION T00003
      DOUBLE PRECISION T00004
      CALL UTC2ET(UTC, T00001)
      CALL SPKEZP(CRAFT, T00001, FRAME, 'NONE', BODY, T00002, T00003)
      CALL NEARPT(T00002, A, B, C, NPT, T00004)
      END
